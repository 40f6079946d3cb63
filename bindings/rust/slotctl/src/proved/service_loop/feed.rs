// Erased by bindings/rust/erase from crates/service_loop/src/feed.rt, sha256 436b2137ef4f81c213d73edb5142502cccf4dc26a6008bd38d94277b8d979a2a.
//! The last changes of who holds numbers, for those who watch.

use crate::kit::alloc::Global;
use crate::kit::Vec;
use crate::proved::model_asked::event::Event;
use crate::proved::model_asked::reply::Reply;
use crate::proved::service_loop::change::{change_of, Change};

/// So many changes are kept at most. Where one comes behind them, the first half is forgotten.
const MOST_CHANGES: usize = 2_048;

/// No change is noted behind so many.
pub const MOST_POINTS: u64 = 1 << 62;

/// The last changes of who holds numbers, each at a point: how many there were before it.
pub struct Feed {
    /// How many changes are forgotten.
    first: u64,
    changes: Vec<Change>,
}

impl Feed {
    /// There was no change.
    pub fn new(alloc: Global) -> Feed {
        Feed {
            first: 0,
            changes: Vec::new(alloc),
        }
    }

    /// Returns the point at which the changes end.
    pub fn end(&self) -> u64 {
        self.first + self.changes.len() as u64
    }

    // The first so many are forgotten.
    fn forget(&mut self, count: usize) {
        self.first += count as u64;
        self.changes.drain(..count);
    }

    // The first half is forgotten, where so many are kept.
    fn make_room(&mut self) {
        if MOST_CHANGES <= self.changes.len() {
            self.forget(MOST_CHANGES / 2);
        }
    }

    // Notes a change. Where an allocation fails, all so far are forgotten, and it too.
    fn add(&mut self, change: Change) {
        let end = self.end();
        if end == MOST_POINTS {
            return;
        }
        self.make_room();
        if self.changes.push(change).is_err() {
            self.changes.clear();
            self.first = end + 1;
        }
    }

    /// Notes what an event that was answered so changes of who holds numbers.
    #[inline(always)]
    pub fn note(&mut self, event: Event, reply: &Reply<()>) {
        if let Some(change) = change_of(event, reply) {
            self.add(change);
        }
    }

    /// Returns the changes from a point on, or `None` if some of them are forgotten or it is behind their end.
    pub fn from(&self, point: u64) -> Option<&[Change]> {
        if point < self.first || self.end() < point {
            return None;
        }
        Some(&self.changes[(point - self.first) as usize..])
    }
}
