// Erased by bindings/rust/erase from crates/service_follow/src/watches.rt, sha256 305874d1c5e1a7a0eb2d04a916b0beba7bb59a23b753f7fd6ff55c062f5cf277.
//! Since when nothing was heard of the front ends that keep stays.

use crate::kit::alloc::{AllocError, Global};
use crate::kit::Vec;
use crate::proved::service_follow::front_end_stay::FrontEndStay;

/// A stay, and the first of the ticks in a row at which the log told the same of it: nothing was heard of its front end since.
#[derive(Clone, Copy, Debug)]
pub struct Watch {
    /// The stay.
    pub stay: FrontEndStay,
    /// The tick.
    pub since: u64,
}

/// The stays in a pool, as they were at a tick.
pub(crate) struct Watches {
    alloc: Global,
    pub(crate) watches: Vec<Watch>,
}

// Whether one stay is kept by one front end, of which no entry was applied between.
fn is_same_stay(stay: &FrontEndStay, other: &FrontEndStay) -> bool {
    stay.identity == other.identity && stay.last == other.last && stay.token == other.token
}

// The first tick in a row at which a stay was so.
fn since_of(watches: &[Watch], stay: &FrontEndStay, tick: u64) -> u64 {
    for watch in watches {
        if is_same_stay(&watch.stay, stay) {
            return watch.since;
        }
    }
    tick
}

impl Watch {
    // Whether the stay is to end: one that is kept here if it is among those that nobody keeps any more, and else once nothing was heard of
    // its front end for more than so many ticks.
    fn is_due(&self, token: &[u8; 32], left: &[u64], patience: u64, tick: u64) -> bool {
        if self.stay.token == *token {
            left.contains(&self.stay.identity)
        } else {
            patience < tick.saturating_sub(self.since)
        }
    }
}

impl Watches {
    /// Makes one of no stays.
    pub(crate) fn new(alloc: Global) -> Watches {
        Watches {
            alloc,
            watches: Vec::new(alloc),
        }
    }

    /// Looks at the stays at a tick.
    ///
    /// # Errors
    ///
    /// `AllocError`: an allocation failed. Nothing has changed.
    pub(crate) fn look(&mut self, kept: &[FrontEndStay], tick: u64) -> Result<(), AllocError> {
        let mut watches = Vec::new(self.alloc);
        for stay in kept {
            let watch = Watch {
                stay: *stay,
                since: since_of(&self.watches, stay, tick),
            };
            watches.push(watch)?;
        }
        self.watches = watches;
        Ok(())
    }

    /// Returns whether the front end of this token keeps a stay.
    pub(crate) fn keeps_one(&self, token: &[u8; 32]) -> bool {
        for watch in &self.watches {
            if watch.stay.token == *token {
                return true;
            }
        }
        false
    }

    /// Returns the identities whose stays are to end, in the order in which they entered.
    ///
    /// # Errors
    ///
    /// `AllocError`: an allocation failed.
    pub(crate) fn due(
        &self,
        token: &[u8; 32],
        left: &[u64],
        patience: u64,
        tick: u64,
    ) -> Result<Vec<u64>, AllocError> {
        let mut due = Vec::new(self.alloc);
        for watch in &self.watches {
            if watch.is_due(token, left, patience, tick) {
                due.push(watch.stay.identity)?;
            }
        }
        Ok(due)
    }
}
