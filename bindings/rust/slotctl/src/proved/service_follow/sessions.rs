// Erased by bindings/rust/erase from crates/service_follow/src/sessions.rt, sha256 842993abcbcef6202f6a249ae1b268f97f87d34f5a239a2227103b11e616a669.
//! What a front end knows of who keeps stays in the pool.

use crate::kit::alloc::{AllocError, Global};
use crate::kit::Vec;
use crate::proved::service_follow::front_end_stay::FrontEndStay;
use crate::proved::service_follow::watches::Watches;

/// For how many seconds after its last entry a front end answers those who keep stays. Behind that and the grace time others end them.
pub const MOST_SILENT: u64 = 20;

/// After how many seconds without an entry a front end that keeps stays has an empty one.
const HEARTBEAT: u64 = 5;

/// How many stays end by one entry, so that it is no longer than one may be.
const MOST_ENDED: usize = 16;

/// What a front end knows of who keeps stays in the pool.
pub(crate) struct Sessions {
    /// The stays, as they were when the log was read last.
    pub(crate) watches: Watches,
    /// For how many seconds a stay goes on that nobody keeps.
    pub(crate) grace: u32,
    /// How often the log was read to its end, about once a second.
    pub(crate) reads: u64,
    /// The second in which the last entry of this front end that stood was sent.
    pub(crate) sent: u64,
    /// The lease of that entry. Another begins with an entry that is known to stand only once the lease before has lapsed: `MOST_SILENT` seconds
    /// after the entry before it was sent. Others may have ended stays meanwhile.
    pub(crate) lease: u64,
}

impl Sessions {
    /// Makes one of no stays.
    pub(crate) fn new(alloc: Global) -> Sessions {
        Sessions {
            watches: Watches::new(alloc),
            grace: 0,
            reads: 0,
            sent: 0,
            lease: 0,
        }
    }

    /// Looks at the stays once the log was read to its end, and returns the identities whose stays are to end: of those that are kept here if
    /// they are among these, and of others once nothing was heard of their front end for longer than it may answer, and the grace time.
    ///
    /// # Errors
    ///
    /// `AllocError`: an allocation failed.
    pub(crate) fn ended(
        &mut self,
        token: &[u8; 32],
        kept: &[FrontEndStay],
        left: &[u64],
    ) -> Result<Vec<u64>, AllocError> {
        self.reads = self.reads.saturating_add(1);
        self.watches.look(kept, self.reads)?;
        let patience = u64::from(self.grace) + MOST_SILENT;
        let mut ended = self.watches.due(token, left, patience, self.reads)?;
        ended.truncate(MOST_ENDED);
        Ok(ended)
    }

    /// Returns true if and only if this front end keeps a stay, and at this second had no entry for as long as a heartbeat takes.
    pub(crate) fn wants_heartbeat(&self, token: &[u8; 32], now: u64) -> bool {
        self.watches.keeps_one(token) && HEARTBEAT <= now.saturating_sub(self.sent)
    }

    // Whether the lease of the last entry goes on at this second.
    fn goes_on(&self, now: u64) -> bool {
        now.saturating_sub(self.sent) < MOST_SILENT
    }

    /// Returns the lease of an entry that is known to stand at this second.
    pub(crate) fn lease_at(&self, now: u64) -> u64 {
        if self.goes_on(now) {
            self.lease
        } else {
            self.lease.wrapping_add(1)
        }
    }

    /// An entry that was sent in one second is known to stand in another.
    pub(crate) fn renew(&mut self, sent: u64, now: u64) {
        self.lease = self.lease_at(now);
        self.sent = sent;
    }

    /// Returns true if and only if this is the lease of the last entry of this front end that stood, and that was sent so lately before this second that
    /// no other ends stays that it keeps.
    pub(crate) fn may_answer(&self, lease: u64, now: u64) -> bool {
        lease == self.lease && self.goes_on(now)
    }
}
