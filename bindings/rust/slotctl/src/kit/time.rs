//! The clock, in the place of the kit's `std::time`. Rust's clock never fails.

pub use std::time::Duration;

use std::io;

/// Leave to read the clock.
pub trait Clock {}

/// A moment.
#[derive(Clone, Copy)]
pub struct Instant(std::time::Instant);

impl Instant {
    /// `now`: this moment.
    pub fn now<R: Clock>(_rt: &R) -> io::Result<Instant> {
        Ok(Instant(std::time::Instant::now()))
    }

    /// `elapsed`: how long ago it was.
    pub fn elapsed<R: Clock>(&self, _rt: &R) -> io::Result<Duration> {
        Ok(self.0.elapsed())
    }
}

/// A time of the system's calendar.
#[derive(Clone, Copy)]
pub struct SystemTime(std::time::SystemTime);

/// `UNIX_EPOCH`: the beginning of 1970.
pub const UNIX_EPOCH: SystemTime = SystemTime(std::time::UNIX_EPOCH);

impl SystemTime {
    /// `now`: the present time.
    pub fn now<R: Clock>(_rt: &R) -> io::Result<SystemTime> {
        Ok(SystemTime(std::time::SystemTime::now()))
    }

    /// `duration_since`: how long after an earlier time it is.
    pub fn duration_since(
        &self,
        earlier: SystemTime,
    ) -> Result<Duration, std::time::SystemTimeError> {
        self.0.duration_since(earlier.0)
    }
}
