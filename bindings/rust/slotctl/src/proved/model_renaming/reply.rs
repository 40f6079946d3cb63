// Erased by bindings/rust/erase from crates/model_renaming/src/reply.rt, sha256 c9c7b150732740159d2baf69e942143a65e3499d04bdc0ff9f3c1e5d51defc22.
//! The reply of a step of a renaming world.

use crate::proved::model_steps::place::Place;
use crate::proved::model_steps::view::View;

/// What a step returns.
///
/// `V` is what it carries of a view: the view that it shows, or `()` if the view is kept beside it and the reply takes
/// a few bytes.
#[derive(Clone, Copy, Debug, PartialEq, Eq)]
pub enum Reply<V> {
    /// The step has completed nothing.
    Quiet,
    /// The participant has reached this place.
    Placed(Place),
    /// The participant has proposed this number.
    Proposed(u64),
    /// The participant has seen, in this view, that another one proposes the same number.
    Saw(V),
    /// The participant has this name, by this view.
    Named(u64, V),
    /// The participant has used up its proposals.
    Spent,
}

impl Reply<View> {
    /// Returns the reply without its view, and puts the view, if it has one, into `view`.
    pub fn shorten(self, view: &mut View) -> Reply<()> {
        match self {
            Reply::Quiet => Reply::Quiet,
            Reply::Placed(place) => Reply::Placed(place),
            Reply::Proposed(number) => Reply::Proposed(number),
            Reply::Saw(seen) => {
                *view = seen;
                Reply::Saw(())
            }
            Reply::Named(name, seen) => {
                *view = seen;
                Reply::Named(name, ())
            }
            Reply::Spent => Reply::Spent,
        }
    }
}
