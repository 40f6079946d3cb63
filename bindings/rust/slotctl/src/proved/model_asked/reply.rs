// Erased by bindings/rust/erase from crates/model_asked/src/reply.rt, sha256 b84f63f99f2f3ac53752e1a4ba73f97f5227f5df112c7a623fa8d9c950818930.
//! The reply to an event.

use crate::proved::model_steps::place::Place;
use crate::proved::model_steps::refusal::Refusal;
use crate::proved::model_steps::view::View;

/// The reply to an event.
///
/// `V` is what it carries of a view. `Reply<View>` carries the view that it shows, and takes a kilobyte. `Reply<()>`
/// takes a few bytes, and its view is kept beside it.
#[derive(Clone, Copy, Debug, PartialEq, Eq)]
pub enum Reply<V> {
    /// Done.
    Ok,
    /// The step has no output.
    Quiet,
    /// The visit to a lone splitter has ended: it stopped.
    Stop,
    /// It went right.
    Right,
    /// It went down.
    Down,
    /// The participant has reached this place.
    Place(Place),
    /// The participant has proposed this number.
    Proposed(u64),
    /// The participant has seen that another proposes what it proposes.
    Saw(V),
    /// The participant has this name, by this view.
    Named(u64, V),
    /// The participant has used up its rounds.
    Spent,
    /// The bit was set: the next probe is of the next bit.
    Missed,
    /// The competitor holds this number.
    Got(u32),
    /// The competitor has given this number back.
    Left(u32),
    /// The value in the slot of the number that is held.
    Value(u64),
    /// The identity that has the name, or `None` if no identity has it.
    Owner(Option<u64>),
    /// The call failed for this reason, and changed nothing.
    Refused(Refusal),
}

impl<V> Reply<V> {
    /// Whether it is a refusal: the event was not accepted.
    #[inline(always)]
    pub fn is_refusal(&self) -> bool {
        matches!(self, Reply::Refused(_))
    }
}

impl Reply<View> {
    /// Returns the reply without its view, and puts the view, if it has one, into `view`.
    pub fn shorten(self, view: &mut View) -> Reply<()> {
        match self {
            Reply::Ok => Reply::Ok,
            Reply::Quiet => Reply::Quiet,
            Reply::Stop => Reply::Stop,
            Reply::Right => Reply::Right,
            Reply::Down => Reply::Down,
            Reply::Place(place) => Reply::Place(place),
            Reply::Proposed(number) => Reply::Proposed(number),
            Reply::Saw(seen) => {
                *view = seen;
                Reply::Saw(())
            }
            Reply::Named(name, seen) => {
                *view = seen;
                Reply::Named(name, ())
            }
            Reply::Spent => Reply::Spent,
            Reply::Missed => Reply::Missed,
            Reply::Got(number) => Reply::Got(number),
            Reply::Left(number) => Reply::Left(number),
            Reply::Value(value) => Reply::Value(value),
            Reply::Owner(owner) => Reply::Owner(owner),
            Reply::Refused(refusal) => Reply::Refused(refusal),
        }
    }
}

impl Reply<()> {
    /// Returns the reply with this view, which was kept beside it.
    pub fn with(self, view: &View) -> Reply<View> {
        match self {
            Reply::Ok => Reply::Ok,
            Reply::Quiet => Reply::Quiet,
            Reply::Stop => Reply::Stop,
            Reply::Right => Reply::Right,
            Reply::Down => Reply::Down,
            Reply::Place(place) => Reply::Place(place),
            Reply::Proposed(number) => Reply::Proposed(number),
            Reply::Saw(()) => Reply::Saw(*view),
            Reply::Named(name, ()) => Reply::Named(name, *view),
            Reply::Spent => Reply::Spent,
            Reply::Missed => Reply::Missed,
            Reply::Got(number) => Reply::Got(number),
            Reply::Left(number) => Reply::Left(number),
            Reply::Value(value) => Reply::Value(value),
            Reply::Owner(owner) => Reply::Owner(owner),
            Reply::Refused(refusal) => Reply::Refused(refusal),
        }
    }

    /// Returns the reply for the outcome of a call that returns no value.
    pub fn of_done(outcome: Result<(), Refusal>) -> Self {
        match outcome {
            Ok(()) => Reply::Ok,
            Err(refusal) => Reply::Refused(refusal),
        }
    }

    /// Returns the reply for the outcome of a call that gives a number back.
    pub fn of_leave(outcome: Result<u32, Refusal>) -> Self {
        match outcome {
            Ok(number) => Reply::Left(number),
            Err(refusal) => Reply::Refused(refusal),
        }
    }

    /// Returns the reply for the outcome of a call that gets a value.
    pub fn of_value(outcome: Result<u64, Refusal>) -> Self {
        match outcome {
            Ok(value) => Reply::Value(value),
            Err(refusal) => Reply::Refused(refusal),
        }
    }
}
