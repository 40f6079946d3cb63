// Erased by bindings/rust/erase from crates/service_lock/src/telling.rt, sha256 3f551813f7e0b9d9486a8801ece46a185ab1518905aac981dbd8baab190a06b4.
//! The history of a lock's book, and what its callers have seen of it.
//!
//! Only a lock adds to its book, and a caller has seen the history as it was at the lock's last reply. So an addition extends the
//! history, and the history extends what a caller has seen. A proof knows of the book what its type says, and not that nothing
//! else adds to it. So each call here asks, and waits for ever if it were otherwise, which never happens.

use crate::kit::logbook::Plain;
use crate::kit::sync::Wait;
use crate::proved::model_asked::event::Event;
use crate::proved::model_asked::exchange::Exchange;
use crate::proved::model_asked::reply::Reply;
use crate::proved::model_steps::view::View;
use crate::proved::service_lock::book::{Book, Front};
use crate::proved::service_lock::parts::LockName;

/// An event with its reply, and the reply's view.
pub(crate) struct Reported<'a> {
    pub(crate) _event: Event,
    pub(crate) _reply: Reply<()>,
    pub(crate) _view: &'a View,
}

/// The entry of an event: the event with its whole reply.
pub(crate) struct Telling;

impl<'a> Plain<Reported<'a>, Exchange, u64> for Telling {}

/// Waits for ever. Its callers never reach it: the page above says why, and a proof cannot. So its clause is `⊥`.
fn wait<R: Wait>(rt: &R) {
    for _ in rt.forever() {}
    unreachable!()
}

/// Appends an event with its reply to the history, and shows a caller all of it.
pub(crate) fn tell<L: LockName, R: Wait>(
    rt: &R,
    book: &Book<L, Exchange>,
    front: &mut Front<L, Exchange>,
    seen: &mut Front<L, Exchange>,
    reported: &Reported<'_>,
) {
    if front.add::<Reported<'_>, Telling>(book, reported) {
        *seen = front.again();
        return;
    }
    wait(rt);
}

/// Shows a caller all of the history, which extends what it has seen.
pub(crate) fn show<L: LockName, R: Wait>(
    rt: &R,
    front: &Front<L, Exchange>,
    seen: &mut Front<L, Exchange>,
) {
    if front.begins_with(seen) {
        *seen = front.again();
        return;
    }
    wait(rt);
}
