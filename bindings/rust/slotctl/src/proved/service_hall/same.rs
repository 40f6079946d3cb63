// Erased by bindings/rust/erase from crates/service_hall/src/same.rt, sha256 2abe818107cd89c761845dcd870cfad1dfd09d6324e9ca5b253ba685123139ab.
//! Comparison of events and of exchanges.

use crate::proved::model_asked::event::Event;
use crate::proved::model_asked::exchange::Exchange;
use crate::proved::model_asked::reply::Reply;
use crate::proved::model_steps::view::View;

/// Returns true only if the two events are equal. Only tested: that it returns true for each two that are equal.
pub fn is_same_event(a: Event, b: Event) -> bool {
    match (a, b) {
        (Event::Begin(p), Event::Begin(q)) => p == q,
        (Event::Step(p), Event::Step(q)) => p == q,
        (Event::Enter(p), Event::Enter(q)) => p == q,
        (Event::Probe(p), Event::Probe(q)) => p == q,
        (Event::Seek(p), Event::Seek(q)) => p == q,
        (Event::Leave(p), Event::Leave(q)) => p == q,
        (Event::Put(p, value), Event::Put(q, other)) => p == q && value == other,
        (Event::Get(p), Event::Get(q)) => p == q,
        (Event::Widen(size), Event::Widen(other)) => size == other,
        _ => false,
    }
}

/// Returns true only if the two replies are equal.
fn is_same_reply(a: &Reply<View>, b: &Reply<View>) -> bool {
    match (a, b) {
        (Reply::Ok, Reply::Ok) => true,
        (Reply::Quiet, Reply::Quiet) => true,
        (Reply::Place(place), Reply::Place(other)) => *place == *other,
        (Reply::Proposed(number), Reply::Proposed(other)) => *number == *other,
        (Reply::Saw(view), Reply::Saw(other)) => *view == *other,
        (Reply::Named(name, view), Reply::Named(other, seen)) => *name == *other && *view == *seen,
        (Reply::Spent, Reply::Spent) => true,
        (Reply::Missed, Reply::Missed) => true,
        (Reply::Got(number), Reply::Got(other)) => *number == *other,
        (Reply::Left(number), Reply::Left(other)) => *number == *other,
        (Reply::Value(value), Reply::Value(other)) => *value == *other,
        _ => false,
    }
}

/// Returns true only if the two exchanges are equal. Only tested: that it returns true for each two equal ones that a
/// hall accepts.
pub fn is_same(a: &Exchange, b: &Exchange) -> bool {
    is_same_event(a.event, b.event) && is_same_reply(&a.reply, &b.reply)
}
