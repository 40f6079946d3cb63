// Erased by bindings/rust/erase from crates/service_watch/src/durations.rt, sha256 d86ff9191b56729c1fefb724a5057e310581ec61a472ce2ae5bc272a8b7eaee7.
//! How long calls took: how many took how long, how long all took together, and how long the last took.
//!
//! From `service_journal/src/file_disk.rt`:
//!
//! ```text
//! times: DurationHistogram::new(),
//! ..
//! self.times.note(took);
//! ```

use crate::kit::time::Duration;

/// How many buckets there are.
pub const BUCKETS: usize = 13;

/// The calls that took no longer than a bound.
#[derive(Clone, Copy, Debug, PartialEq, Eq)]
pub struct Bucket {
    /// The longest that they took, in microseconds.
    pub bound: u64,
    /// How many there were. It stops at its greatest value.
    pub count: u64,
}

impl Bucket {
    /// No call is in it.
    fn new(bound: u64) -> Bucket {
        Bucket { bound, count: 0 }
    }

    /// Counts a call of so many microseconds, if it took no longer than the bound.
    fn note(&mut self, micros: u64) {
        if micros <= self.bound {
            self.count = self.count.saturating_add(1);
        }
    }
}

/// How long calls took. All sums stop at their greatest value, and do not wrap.
#[derive(Clone, Copy, Debug, PartialEq, Eq)]
pub struct DurationHistogram {
    /// The calls by their bounds, from a tenth of a millisecond to a second: each bucket has those of the buckets before it too.
    pub buckets: [Bucket; BUCKETS],
    /// How many there were.
    pub count: u64,
    /// How many microseconds they took together.
    pub total: u64,
    /// How many microseconds the last took.
    pub last: u64,
}

/// The whole microseconds of a duration, at most as many as a number of 64 bits says.
fn whole_micros(took: Duration) -> u64 {
    took.as_micros().min(u64::MAX as u128) as u64
}

/// Counts a call of so many microseconds in each bucket whose bound it does not pass.
fn note_in_all(buckets: &mut [Bucket], micros: u64) {
    for bucket in buckets.iter_mut() {
        bucket.note(micros);
    }
}

impl DurationHistogram {
    /// No call was noted. The bounds are 1, 2 and 5 times a power of ten, from 100 to 1,000,000 microseconds.
    pub fn new() -> DurationHistogram {
        DurationHistogram {
            buckets: [
                Bucket::new(100),
                Bucket::new(200),
                Bucket::new(500),
                Bucket::new(1_000),
                Bucket::new(2_000),
                Bucket::new(5_000),
                Bucket::new(10_000),
                Bucket::new(20_000),
                Bucket::new(50_000),
                Bucket::new(100_000),
                Bucket::new(200_000),
                Bucket::new(500_000),
                Bucket::new(1_000_000),
            ],
            count: 0,
            total: 0,
            last: 0,
        }
    }

    /// Notes a call that took so long.
    pub fn note(&mut self, took: Duration) {
        let micros = whole_micros(took);
        note_in_all(&mut self.buckets, micros);
        self.count = self.count.saturating_add(1);
        self.total = self.total.saturating_add(micros);
        self.last = micros;
    }
}
