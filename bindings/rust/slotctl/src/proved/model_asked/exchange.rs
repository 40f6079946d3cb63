// Erased by bindings/rust/erase from crates/model_asked/src/exchange.rt, sha256 aa76eb213e1f9e11f5f4a484a558955847fc3f45fed561bd27b2199329778209.
//! An event and its reply.

use crate::proved::model_asked::event::Event;
use crate::proved::model_asked::reply::Reply;
use crate::proved::model_steps::view::View;

/// An event and its reply: an operation with its response.
#[derive(Clone, Copy, Debug, PartialEq, Eq)]
pub struct Exchange {
    /// The event.
    pub event: Event,
    /// The reply to it.
    pub reply: Reply<View>,
}
