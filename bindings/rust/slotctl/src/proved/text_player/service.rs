// Erased by bindings/rust/erase from crates/text_player/src/service.rt, sha256 da3990a067a60074fe705eb25c6d057f427e3395841094483c40343521b63607.
//! Services, which answer requests.

use crate::proved::model_asked::event::Event;
use crate::proved::model_asked::reply::Reply;
use crate::proved::model_steps::view::View;

/// A service: it answers events and questions for the owner of a name, one by one, as its relation `may` allows.
pub trait Service<R>: Sized {
    /// Applies one event, and returns the reply. A reply that shows a view shows the one that this call stores in
    /// `view`.
    fn apply(&mut self, rt: &R, event: Event, view: &mut View) -> Reply<()>;

    /// Returns the reply to a question for the owner of name `n`.
    fn owner(&mut self, rt: &R, n: u64) -> Reply<View>;
}
