// Erased by bindings/rust/erase from crates/service_watch/src/tests.rt, sha256 a8e050dfa3cef93d15846f19f71f30dc5e2b6ecc8744923098e64ba9c1740542.
use crate::kit::Vec;
use crate::kit::HostRuntime;
use crate::proved::service_watch::durations::DurationHistogram;
use crate::proved::service_watch::request::{Asked, asked_by};
use crate::proved::service_watch::numbers::{Numbers, Releases, Tally};
use crate::proved::service_watch::answer::put_answer;
use crate::proved::service_watch::page::put_page;
use crate::kit::time::Duration;

// The numbers of a server that knows nothing but what each knows.
fn few() -> Numbers {
    Numbers {
        clients: 3,
        accepted: 10,
        faults: 2,
        lines: 12_345,
        ticks: 61,
        releases: Releases {
            client: 4,
            grace: 1,
            front_end: 0,
        },
        refusals: [0, 0, 0, 0, 0, 0, 0, 1, 0, 0, 0, 0, 0, 0],
        audit_lines_lost: None,
        ready: true,
        tally: Tally::of_events(7),
        log_age: None,
    }
}

// The page of few numbers.
const FEW: &str = "# HELP slotctl_clients Clients that are connected.
# TYPE slotctl_clients gauge
slotctl_clients 3
# HELP slotctl_connections_total Connections that were accepted since the start.
# TYPE slotctl_connections_total counter
slotctl_connections_total 10
# HELP slotctl_connection_faults_total Connections that ended by a fault since the start: a reset, a log that was lost, or memory that was refused.
# TYPE slotctl_connection_faults_total counter
slotctl_connection_faults_total 2
# HELP slotctl_lines_total Lines of clients that were taken since the start.
# TYPE slotctl_lines_total counter
slotctl_lines_total 12345
# HELP slotctl_ticks_total Seconds that the loop counted since the start; it counts one a turn at most.
# TYPE slotctl_ticks_total counter
slotctl_ticks_total 61
# HELP slotctl_ready 1 where clients are answered, 0 while the log does not answer.
# TYPE slotctl_ready gauge
slotctl_ready 1
# HELP slotctl_releases_total Numbers that were given back since the start, by the cause.
# TYPE slotctl_releases_total counter
slotctl_releases_total{cause=\"client\"} 4
slotctl_releases_total{cause=\"grace\"} 1
slotctl_releases_total{cause=\"front_end\"} 0
# HELP slotctl_refusals_total Lines that were refused since the start, by the number of the refusal.
# TYPE slotctl_refusals_total counter
slotctl_refusals_total{refusal=\"1\"} 0
slotctl_refusals_total{refusal=\"2\"} 0
slotctl_refusals_total{refusal=\"3\"} 0
slotctl_refusals_total{refusal=\"4\"} 0
slotctl_refusals_total{refusal=\"5\"} 0
slotctl_refusals_total{refusal=\"6\"} 0
slotctl_refusals_total{refusal=\"7\"} 0
slotctl_refusals_total{refusal=\"8\"} 1
slotctl_refusals_total{refusal=\"9\"} 0
slotctl_refusals_total{refusal=\"10\"} 0
slotctl_refusals_total{refusal=\"11\"} 0
slotctl_refusals_total{refusal=\"12\"} 0
slotctl_refusals_total{refusal=\"13\"} 0
slotctl_refusals_total{refusal=\"14\"} 0
# HELP slotctl_history_events Events of the history.
# TYPE slotctl_history_events gauge
slotctl_history_events 7
";

#[test]
fn a_page_has_what_is_known(rt: HostRuntime) {
    let mut page = Vec::new(rt.alloc());
    assert_eq!(rt; put_page(&few(), &mut page).is_ok(), true);
    assert_eq!(rt; page.as_slice(), FEW.as_bytes());
}

// Whether these bytes have a line.
fn has_line(page: &[u8], line: &str) -> bool {
    page.split(|byte| *byte == b'\n')
        .any(|found| found == line.as_bytes())
}

// The numbers of a server that knows all of them.
fn many() -> Numbers {
    let mut syncs = DurationHistogram::new();
    syncs.note(Duration::from_micros(150));
    syncs.note(Duration::from_micros(2_000_007));
    Numbers {
        ready: false,
        audit_lines_lost: Some(12),
        tally: Tally {
            events_left: Some(999_993),
            compactions: Some(4),
            competitors: Some(5),
            numbers_free: Some(6),
            names_given: Some(8),
            journal_bytes: Some(9),
            syncs: Some(syncs),
            log_place: Some(10),
            log_since_compaction: Some(13),
            ..Tally::of_events(7)
        },
        log_age: Some(11),
        ..few()
    }
}

// The lines of their page that the page of few numbers has not.
const MANY: [&str; 18] = [
    "slotctl_ready 0",
    "slotctl_audit_lines_lost_total 12",
    "slotctl_history_events_left 999993",
    "slotctl_compactions_total 4",
    "slotctl_competitors 5",
    "slotctl_numbers_free 6",
    "slotctl_names_given 8",
    "slotctl_journal_bytes 9",
    "slotctl_journal_sync_last_seconds 2.000007",
    "slotctl_journal_sync_seconds_bucket{le=\"0.000100\"} 0",
    "slotctl_journal_sync_seconds_bucket{le=\"0.000200\"} 1",
    "slotctl_journal_sync_seconds_bucket{le=\"1.000000\"} 1",
    "slotctl_journal_sync_seconds_bucket{le=\"+Inf\"} 2",
    "slotctl_journal_sync_seconds_sum 2.000157",
    "slotctl_journal_sync_seconds_count 2",
    "slotctl_log_place 10",
    "slotctl_log_entries_since_compaction 13",
    "slotctl_log_append_age_seconds 11",
];

#[test]
fn each_number_has_its_line(rt: HostRuntime) {
    let mut page = Vec::new(rt.alloc());
    assert_eq!(rt; put_page(&many(), &mut page).is_ok(), true);
    for line in MANY {
        assert_eq!(rt; (line, has_line(&page, line)), (line, true));
    }
}

#[test]
fn a_request_is_read_once_its_head_has_come(rt: HostRuntime) {
    let request = b"GET /metrics HTTP/1.1\r\nHost: a\r\n\r\n";
    for end in 0..request.len() {
        assert_eq!(rt; asked_by(&request[..end]), None);
    }
    assert_eq!(rt; asked_by(request), Some(Asked::Page));
    assert_eq!(rt;
        asked_by(b"GET /metrics?a=b HTTP/1.1\r\n\r\n"),
        Some(Asked::Page)
    );
    assert_eq!(rt;
        asked_by(b"GET /healthz HTTP/1.0\r\n\r\n"),
        Some(Asked::Alive)
    );
    assert_eq!(rt;
        asked_by(b"GET /readyz HTTP/1.1\r\n\r\n"),
        Some(Asked::Ready)
    );
    assert_eq!(rt;
        asked_by(b"GET /metrics/ HTTP/1.1\r\n\r\n"),
        Some(Asked::Nowhere)
    );
    assert_eq!(rt;
        asked_by(b"HEAD /metrics HTTP/1.1\r\n\r\n"),
        Some(Asked::OtherMethod)
    );
    assert_eq!(rt; asked_by(b"enter 1\n"), Some(Asked::Unreadable));
}

#[test]
fn an_answer_has_its_length(rt: HostRuntime) {
    let mut answer = Vec::new(rt.alloc());
    let lost = Numbers {
        ready: false,
        ..few()
    };
    assert_eq!(rt;
        put_answer(rt.alloc(), Asked::Ready, &lost, &mut answer).is_ok(),
        true
    );
    let wanted =
        "HTTP/1.1 503 Service Unavailable\r\nContent-Type: text/plain; charset=utf-8\r\nContent-Length: 24\r\nConnection: close\r\n\r\nthe log does not answer\n";
    assert_eq!(rt; answer.as_slice(), wanted.as_bytes());
}

#[test]
fn another_method_is_refused(rt: HostRuntime) {
    let mut answer = Vec::new(rt.alloc());
    assert_eq!(rt;
        put_answer(rt.alloc(), Asked::OtherMethod, &few(), &mut answer).is_ok(),
        true
    );
    let wanted =
        "HTTP/1.1 405 Method Not Allowed\r\nContent-Type: text/plain; charset=utf-8\r\nAllow: GET\r\nContent-Length: 16\r\nConnection: close\r\n\r\nGET is answered\n";
    assert_eq!(rt; answer.as_slice(), wanted.as_bytes());
}
