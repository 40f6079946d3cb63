// Erased by bindings/rust/erase from crates/service_watch/src/numbers.rt, sha256 540e005048fa9e90b017128c11b896c550863fb2253a8d3bf55dcfc306d8cd75.
//! What a page tells.

use crate::proved::service_watch::durations::DurationHistogram;

/// How many refusals there are: their numbers are from 1 to this.
pub const REFUSALS: usize = 14;

/// How many numbers were given back since the start, by the cause.
#[derive(Clone, Copy, Debug, PartialEq, Eq)]
pub struct Releases {
    /// A client said `leave`.
    pub client: u64,
    /// The grace time of their keeper was over.
    pub grace: u64,
    /// The front end of their keeper was gone.
    pub front_end: u64,
}

/// What a server tells of its history and of what keeps it, to whoever looks on. What does not apply there, or is not known, is none.
#[derive(Clone, Copy, Debug, PartialEq, Eq)]
pub struct Tally {
    /// How many events the history has.
    pub events: u64,
    /// How many more it takes.
    pub events_left: Option<u64>,
    /// How often the history was compacted since the start.
    pub compactions: Option<u64>,
    /// How many identities compete for numbers, those that hold one among them.
    pub competitors: Option<u64>,
    /// How many numbers nobody holds.
    pub numbers_free: Option<u64>,
    /// How many names are given.
    pub names_given: Option<u64>,
    /// How many bytes of a journal are kept.
    pub journal_bytes: Option<u64>,
    /// How long the syncs of a journal took.
    pub syncs: Option<DurationHistogram>,
    /// How many entries of a log are applied.
    pub log_place: Option<u64>,
    /// How many of them since the last compaction.
    pub log_since_compaction: Option<u64>,
    /// Whether the log answered when it was last asked.
    pub log_answers: Option<bool>,
}

impl Tally {
    /// Nothing is known but how many events there are.
    pub fn of_events(events: u64) -> Tally {
        Tally {
            events,
            events_left: None,
            compactions: None,
            competitors: None,
            numbers_free: None,
            names_given: None,
            journal_bytes: None,
            syncs: None,
            log_place: None,
            log_since_compaction: None,
            log_answers: None,
        }
    }
}

/// What a page tells of a server. What is not known there is none, and left out of the page.
#[derive(Clone, Copy, Debug, PartialEq, Eq)]
pub struct Numbers {
    /// How many clients are connected.
    pub clients: u64,
    /// How many connections were accepted since the start.
    pub accepted: u64,
    /// How many connections ended by a fault since the start.
    pub faults: u64,
    /// How many lines of clients were taken since the start.
    pub lines: u64,
    /// How many seconds were counted since the start.
    pub ticks: u64,
    /// How many numbers were given back since the start.
    pub releases: Releases,
    /// How many lines were answered by each refusal since the start: by refusal N at the place N - 1.
    pub refusals: [u64; REFUSALS],
    /// How many lines of the audit log were lost since the start.
    pub audit_lines_lost: Option<u64>,
    /// Whether the log answers, where there is one.
    pub ready: bool,
    /// What is told of the history and of what keeps it.
    pub tally: Tally,
    /// How many seconds ago an entry was last applied, or the server started.
    pub log_age: Option<u64>,
}
