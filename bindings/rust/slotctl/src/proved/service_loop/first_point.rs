// Erased by bindings/rust/erase from crates/service_loop/src/first_point.rt, sha256 77960093a2cb44c71127beeeff3bc9f028723fdefe9e907259c614329581ba02.
//! From which number on the points are counted that those who watch are told.

use crate::kit::rt::Clock;
use crate::kit::time::{SystemTime, UNIX_EPOCH};
use crate::proved::service_loop::feed::MOST_POINTS;

/// No server has more changes in a millisecond.
const POINTS_A_MILLISECOND: u64 = 1_024;

/// The point before the first change: a server that starts later has a greater one, so that no point of an earlier server is taken for one of its own.
pub struct FirstPoint {
    point: u64,
}

// The milliseconds since 1970 by the clock of the system; 0 where it tells none.
fn milliseconds<R: Clock>(rt: &R) -> u64 {
    let Ok(now) = SystemTime::now(rt) else {
        return 0;
    };
    match now.duration_since(UNIX_EPOCH) {
        Ok(since) => since
            .as_secs()
            .saturating_mul(1_000)
            .saturating_add(u64::from(since.subsec_millis())),
        Err(_) => 0,
    }
}

impl FirstPoint {
    /// The first point of a server that starts now.
    pub fn at_start<R: Clock>(rt: &R) -> FirstPoint {
        FirstPoint::new(milliseconds(rt).saturating_mul(POINTS_A_MILLISECOND))
    }

    /// This point, or the greatest that there may be.
    pub fn new(point: u64) -> FirstPoint {
        FirstPoint {
            point: point.min(MOST_POINTS),
        }
    }

    /// Returns the point itself.
    pub fn get(&self) -> u64 {
        self.point
    }
}
