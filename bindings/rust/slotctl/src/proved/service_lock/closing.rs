// Erased by bindings/rust/erase from crates/service_lock/src/closing.rt, sha256 299af05f3f95c844be1d62bf81d0b11d183777be8f5dedafd866da6650fc2f6d.
//! The end of a lock: its history is compared with what its callers kept.

use crate::kit::sync::Mutex;
use crate::kit::Vec;
use crate::proved::service_lock::lock::HallLock;
use crate::proved::service_lock::matching::Closed;
use crate::proved::service_lock::parts::{Clerk, LockName, Session};

/// What was given to `close`, if a caller or an event is missing.
pub struct Missing<L: LockName> {
    /// The lock.
    pub _lock: HallLock<L>,
    /// The sessions.
    pub _sessions: Vec<Session<L>>,
    /// The clerks.
    pub _clerks: Vec<Clerk<L>>,
}

impl<L: LockName> HallLock<L> {
    /// Ends a lock and compares its history with what its callers kept. This allocates nothing.
    ///
    /// Returns the history if all callers that were opened are given. Each place of it was then kept by exactly one of
    /// them, with its event and its reply.
    ///
    /// # Errors
    ///
    /// `Missing`: a caller is missing, or the history and what the callers kept differ. Its fields are what was given.
    pub fn close(
        self,
        sessions: Vec<Session<L>>,
        clerks: Vec<Clerk<L>>,
    ) -> Result<Closed<L>, Missing<L>> {
        let HallLock { locked } = self;
        let mut locked = locked.into_inner();
        let opened = locked.opened() as usize;
        let all_given = sessions.len() <= opened && clerks.len() == opened - sessions.len();
        if all_given && locked.agrees(&sessions, &clerks) {
            return Ok(locked.closed(sessions, clerks));
        }
        Err(Missing {
            _lock: HallLock {
                locked: Mutex::new(locked),
            },
            _sessions: sessions,
            _clerks: clerks,
        })
    }
}
