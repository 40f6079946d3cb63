// Erased by bindings/rust/erase from crates/service_watch/src/page.rt, sha256 50199131a3f0925a25abc76d153fc00168d8aedfeddb33f045137cc1de4d3842.
//! The page of metrics.

use crate::kit::alloc::AllocError;
use crate::kit::itoa::Buffer;
use crate::kit::Vec;
use crate::proved::service_watch::durations::{Bucket, DurationHistogram};
use crate::proved::service_watch::numbers::{Numbers, Releases, REFUSALS};

/// What a metric is, for Prometheus.
#[derive(Clone, Copy)]
enum Kind {
    /// A number that rises and falls.
    Gauge,
    /// A number that only rises, until the server starts again.
    Counter,
    /// How many of each size there were.
    Histogram,
}

// The word for a kind.
fn word_of(kind: Kind) -> &'static str {
    match kind {
        Kind::Gauge => "gauge",
        Kind::Counter => "counter",
        Kind::Histogram => "histogram",
    }
}

// Appends a text.
fn put(text: &str, page: &mut Vec<u8>) -> Result<(), AllocError> {
    page.extend_from_slice(text.as_bytes())
}

// Appends a number in decimal digits.
fn put_digits(number: u64, page: &mut Vec<u8>) -> Result<(), AllocError> {
    page.extend_from_slice(Buffer::new().format(number).as_bytes())
}

// Appends the line of a number: its name, a blank, and its decimal digits.
fn put_value(name: &str, number: u64, page: &mut Vec<u8>) -> Result<(), AllocError> {
    put(name, page)?;
    put(" ", page)?;
    put_digits(number, page)?;
    put("\n", page)
}

// Appends what a metric is.
fn put_head(kind: Kind, name: &str, help: &str, page: &mut Vec<u8>) -> Result<(), AllocError> {
    put("# HELP ", page)?;
    put(name, page)?;
    put(" ", page)?;
    put(help, page)?;
    put("\n# TYPE ", page)?;
    put(name, page)?;
    put(" ", page)?;
    put(word_of(kind), page)?;
    put("\n", page)
}

// Appends a metric with its number.
fn put_number(
    kind: Kind,
    name: &str,
    help: &str,
    number: u64,
    page: &mut Vec<u8>,
) -> Result<(), AllocError> {
    put_head(kind, name, help, page)?;
    put_value(name, number, page)
}

// Appends a metric that is 1 or 0.
fn put_flag(name: &str, help: &str, flag: bool, page: &mut Vec<u8>) -> Result<(), AllocError> {
    let number = if flag { 1 } else { 0 };
    put_number(Kind::Gauge, name, help, number, page)
}

// Appends a metric with its number, where there is one.
fn put_known(
    kind: Kind,
    name: &str,
    help: &str,
    number: Option<u64>,
    page: &mut Vec<u8>,
) -> Result<(), AllocError> {
    match number {
        Some(number) => put_number(kind, name, help, number, page),
        None => Ok(()),
    }
}

// Appends so many microseconds as seconds, with six digits behind the point.
fn put_seconds(micros: u64, page: &mut Vec<u8>) -> Result<(), AllocError> {
    put_digits(micros / 1_000_000, page)?;
    put(".", page)?;
    for unit in [100_000, 10_000, 1_000, 100, 10, 1] {
        put_digits(micros / unit % 10, page)?;
    }
    Ok(())
}

// Appends a bucket of a histogram.
fn put_bucket(name: &str, bucket: Bucket, page: &mut Vec<u8>) -> Result<(), AllocError> {
    put(name, page)?;
    put("_bucket{le=\"", page)?;
    put_seconds(bucket.bound, page)?;
    put("\"} ", page)?;
    put_digits(bucket.count, page)?;
    put("\n", page)
}

// Appends the bucket of all calls.
fn put_last_bucket(name: &str, count: u64, page: &mut Vec<u8>) -> Result<(), AllocError> {
    put(name, page)?;
    put_value("_bucket{le=\"+Inf\"}", count, page)
}

// Appends the metrics of how long calls took.
fn put_histogram(
    name: &str,
    histogram: &DurationHistogram,
    page: &mut Vec<u8>,
) -> Result<(), AllocError> {
    for bucket in &histogram.buckets {
        put_bucket(name, *bucket, page)?;
    }
    put_last_bucket(name, histogram.count, page)?;
    put(name, page)?;
    put("_sum ", page)?;
    put_seconds(histogram.total, page)?;
    put("\n", page)?;
    put(name, page)?;
    put_value("_count", histogram.count, page)
}

// Appends what concerns the clients.
fn put_clients(numbers: &Numbers, page: &mut Vec<u8>) -> Result<(), AllocError> {
    put_number(
        Kind::Gauge,
        "slotctl_clients",
        "Clients that are connected.",
        numbers.clients,
        page,
    )?;
    put_number(
        Kind::Counter,
        "slotctl_connections_total",
        "Connections that were accepted since the start.",
        numbers.accepted,
        page,
    )?;
    put_number(
        Kind::Counter,
        "slotctl_connection_faults_total",
        "Connections that ended by a fault since the start: a reset, a log that was lost, or memory that was refused.",
        numbers.faults,
        page,
    )?;
    put_number(
        Kind::Counter,
        "slotctl_lines_total",
        "Lines of clients that were taken since the start.",
        numbers.lines,
        page,
    )?;
    put_number(
        Kind::Counter,
        "slotctl_ticks_total",
        "Seconds that the loop counted since the start; it counts one a turn at most.",
        numbers.ticks,
        page,
    )?;
    put_flag(
        "slotctl_ready",
        "1 where clients are answered, 0 while the log does not answer.",
        numbers.ready,
        page,
    )
}

// Appends how many numbers were given back, by the cause.
fn put_releases(releases: Releases, page: &mut Vec<u8>) -> Result<(), AllocError> {
    let name = "slotctl_releases_total";
    put_head(
        Kind::Counter,
        name,
        "Numbers that were given back since the start, by the cause.",
        page,
    )?;
    put(name, page)?;
    put_value("{cause=\"client\"}", releases.client, page)?;
    put(name, page)?;
    put_value("{cause=\"grace\"}", releases.grace, page)?;
    put(name, page)?;
    put_value("{cause=\"front_end\"}", releases.front_end, page)
}

// Appends how many lines were answered by each refusal.
fn put_refusals(refusals: &[u64; REFUSALS], page: &mut Vec<u8>) -> Result<(), AllocError> {
    let name = "slotctl_refusals_total";
    put_head(
        Kind::Counter,
        name,
        "Lines that were refused since the start, by the number of the refusal.",
        page,
    )?;
    for at in 0..REFUSALS {
        put(name, page)?;
        put("{refusal=\"", page)?;
        put_digits(at as u64 + 1, page)?;
        put_value("\"}", refusals[at], page)?;
    }
    Ok(())
}

// Appends what was refused to clients, and what was given back.
fn put_audit(numbers: &Numbers, page: &mut Vec<u8>) -> Result<(), AllocError> {
    put_releases(numbers.releases, page)?;
    put_refusals(&numbers.refusals, page)?;
    put_known(
        Kind::Counter,
        "slotctl_audit_lines_lost_total",
        "Lines of the audit log that were not written since the start.",
        numbers.audit_lines_lost,
        page,
    )
}

// Appends what concerns the history and what it leads to.
fn put_hall(numbers: &Numbers, page: &mut Vec<u8>) -> Result<(), AllocError> {
    put_number(
        Kind::Gauge,
        "slotctl_history_events",
        "Events of the history.",
        numbers.tally.events,
        page,
    )?;
    put_known(
        Kind::Gauge,
        "slotctl_history_events_left",
        "Events that the history takes yet, of 1000000; at 0 each event is refused.",
        numbers.tally.events_left,
        page,
    )?;
    put_known(
        Kind::Counter,
        "slotctl_compactions_total",
        "Compactions of the history since the start.",
        numbers.tally.compactions,
        page,
    )?;
    put_known(
        Kind::Gauge,
        "slotctl_competitors",
        "Identities that compete for numbers, those that hold one among them.",
        numbers.tally.competitors,
        page,
    )?;
    put_known(
        Kind::Gauge,
        "slotctl_numbers_free",
        "Numbers of the pool that nobody holds.",
        numbers.tally.numbers_free,
        page,
    )?;
    put_known(
        Kind::Gauge,
        "slotctl_names_given",
        "Names that are given.",
        numbers.tally.names_given,
        page,
    )
}

// Appends how long the syncs of a journal took.
fn put_syncs(syncs: &DurationHistogram, page: &mut Vec<u8>) -> Result<(), AllocError> {
    let last = "slotctl_journal_sync_last_seconds";
    put_head(
        Kind::Gauge,
        last,
        "Seconds that the last sync of the journal took, from the call to the system until the file was looked at.",
        page,
    )?;
    put(last, page)?;
    put(" ", page)?;
    put_seconds(syncs.last, page)?;
    put("\n", page)?;
    let all = "slotctl_journal_sync_seconds";
    put_head(
        Kind::Histogram,
        all,
        "Seconds that the syncs of the journal took since the start; a compaction is none of them.",
        page,
    )?;
    put_histogram(all, syncs, page)
}

// Appends how long the syncs of a journal took, where there is one.
fn put_known_syncs(syncs: Option<DurationHistogram>, page: &mut Vec<u8>) -> Result<(), AllocError> {
    match syncs {
        Some(syncs) => put_syncs(&syncs, page),
        None => Ok(()),
    }
}

// Appends what concerns a journal or a log.
fn put_keeping(numbers: &Numbers, page: &mut Vec<u8>) -> Result<(), AllocError> {
    put_known(
        Kind::Gauge,
        "slotctl_journal_bytes",
        "Bytes of the journal.",
        numbers.tally.journal_bytes,
        page,
    )?;
    put_known_syncs(numbers.tally.syncs, page)?;
    put_known(
        Kind::Gauge,
        "slotctl_log_place",
        "Entries of the log that are applied.",
        numbers.tally.log_place,
        page,
    )?;
    put_known(
        Kind::Gauge,
        "slotctl_log_entries_since_compaction",
        "Entries of the log that are applied since the last compaction; at 10000 the next is due.",
        numbers.tally.log_since_compaction,
        page,
    )?;
    put_known(
        Kind::Gauge,
        "slotctl_log_append_age_seconds",
        "Seconds since an entry of the log was last applied, or since the start.",
        numbers.log_age,
        page,
    )
}

/// Appends the page of these numbers.
///
/// # Errors
///
/// `AllocError`: an allocation failed. A part of the page may stand there.
pub fn put_page(numbers: &Numbers, page: &mut Vec<u8>) -> Result<(), AllocError> {
    put_clients(numbers, page)?;
    put_audit(numbers, page)?;
    put_hall(numbers, page)?;
    put_keeping(numbers, page)
}
