// Erased by bindings/rust/erase from crates/service_loop/src/change.rt, sha256 04edd0b984320709872b2601feca126f79e82dd46b861cec1019256c7c7ef689.
//! Changes of who holds numbers.

use crate::proved::model_asked::event::Event;
use crate::proved::model_asked::reply::Reply;

/// A change of who holds a number.
#[derive(Clone, Copy, Debug, PartialEq, Eq)]
pub enum Change {
    /// This identity took the number.
    Got(u32, u64),
    /// This identity gave the number back.
    Left(u32, u64),
}

/// Whose event it is; of `widen` the size.
pub(crate) fn identity_of(event: Event) -> u64 {
    match event {
        Event::Begin(id)
        | Event::Step(id)
        | Event::Enter(id)
        | Event::Probe(id)
        | Event::Seek(id)
        | Event::Leave(id)
        | Event::Put(id, _)
        | Event::Get(id)
        | Event::Widen(id) => id,
    }
}

/// What an event that was answered so changes of who holds numbers.
pub(crate) fn change_of(event: Event, reply: &Reply<()>) -> Option<Change> {
    match reply {
        Reply::Got(number) => Some(Change::Got(*number, identity_of(event))),
        Reply::Left(number) => Some(Change::Left(*number, identity_of(event))),
        _ => None,
    }
}
