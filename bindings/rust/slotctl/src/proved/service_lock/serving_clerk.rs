// Erased by bindings/rust/erase from crates/service_lock/src/serving_clerk.rt, sha256 f2c82e13bff8eb9b6fd194a9f29c375ce2558b8d6a32cc0ec186abec122afcd8.
//! A clerk at its lock, as a service.

use crate::kit::sync::Wait;
use crate::proved::model_asked::event::Event;
use crate::proved::model_asked::reply::Reply;
use crate::proved::model_steps::view::View;
use crate::proved::service_lock::lock::HallLock;
use crate::proved::service_lock::parts::{Clerk, LockName};
use crate::proved::text_player::service::Service;

/// A clerk with its lock, as a service: it applies each event under the lock.
pub struct ServingClerk<'a, L: LockName> {
    lock: &'a HallLock<L>,
    clerk: Clerk<L>,
}

impl<'a, L: LockName> ServingClerk<'a, L> {
    /// Makes a service of a clerk and its lock.
    pub fn new(lock: &'a HallLock<L>, clerk: Clerk<L>) -> ServingClerk<'a, L> {
        ServingClerk { lock, clerk }
    }

    /// Returns the clerk.
    pub fn into_clerk(self) -> Clerk<L> {
        let ServingClerk { lock: _, clerk } = self;
        clerk
    }
}

impl<'a, L: LockName, R: Wait> Service<R> for ServingClerk<'a, L> {
    fn apply(&mut self, rt: &R, event: Event, view: &mut View) -> Reply<()> {
        let ServingClerk { lock, clerk } = self;
        lock.apply_short(rt, clerk, event, view)
    }

    fn owner(&mut self, rt: &R, n: u64) -> Reply<View> {
        let ServingClerk { lock, clerk } = self;
        lock.tell_owner(rt, clerk, n)
    }
}
