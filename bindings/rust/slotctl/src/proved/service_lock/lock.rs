// Erased by bindings/rust/erase from crates/service_lock/src/lock.rt, sha256 1300411f258e23beb977cf3f3f073e029e18348db3f4e1c54522152cb2442578.
//! A hall under a lock.

use crate::kit::alloc::Global;
use crate::kit::sync::ledger::Blank;
use crate::kit::sync::{Mutex, Wait};
use crate::proved::model_asked::config::Config;
use crate::proved::model_asked::event::Event;
use crate::proved::model_asked::exchange::Exchange;
use crate::proved::model_asked::reply::Reply;
use crate::proved::model_steps::refusal::Refusal;
use crate::proved::model_steps::view::View;
use crate::proved::service_lock::book::Opened;
use crate::proved::service_lock::parts::{Clerk, LockName, Locked};

/// A hall behind a mutex, which threads share.
pub struct HallLock<L: LockName> {
    pub(crate) locked: Mutex<Locked<L>>,
}

impl<L: LockName> HallLock<L> {
    /// Makes a lock around a hall of this configuration with no event.
    ///
    /// # Errors
    ///
    /// An error drops the blank and the history. The first that applies is returned:
    ///
    /// - `OutOfRange`: the world of `config` gives no names.
    /// - `NoMemory`: an allocation failed.
    pub fn new(
        alloc: Global,
        config: Config,
        blank: Blank,
        history: Opened<Exchange>,
    ) -> Result<HallLock<L>, Refusal> {
        let locked = Locked::new(alloc, config, blank, history)?;
        Ok(HallLock {
            locked: Mutex::new(locked),
        })
    }

    /// Opens a clerk, which has kept no event.
    ///
    /// # Errors
    ///
    /// - `Full`: 1,000,000 callers were opened.
    /// - `NoMemory`: an allocation failed.
    pub fn clerk<R: Wait>(&self, rt: &R, alloc: Global) -> Result<Clerk<L>, Refusal> {
        self.locked.lock(rt).open(alloc)
    }

    /// Applies one event as `apply` does, and returns a reply of a few bytes. If the reply has a view, the view is put
    /// into `view`.
    pub fn apply_short<R: Wait>(
        &self,
        rt: &R,
        clerk: &mut Clerk<L>,
        event: Event,
        view: &mut View,
    ) -> Reply<()> {
        self.locked.lock(rt).apply(rt, clerk, event, view)
    }

    /// Returns the identity that has a name, and shows the clerk the history so far. See `Desk::owner` for the reply.
    pub fn tell_owner<R: Wait>(&self, rt: &R, clerk: &mut Clerk<L>, number: u64) -> Reply<View> {
        self.locked.lock(rt).tell_owner(rt, clerk, number)
    }
}
