// Erased by bindings/rust/erase from crates/service_host/src/reading.rt, sha256 c52baa6252a38cbfd18fef11a9ad41f639811c8c5da35ea8d7c62e72abcf500d.
//! A service with the rules for its clients.

use crate::proved::model_asked::event::Event;
use crate::proved::model_asked::reply::Reply;
use crate::proved::model_steps::refusal::Refusal;
use crate::proved::model_steps::view::View;
use crate::proved::service_hall::hall::Hall;
use crate::proved::service_hall::raising::token_reply;
use crate::proved::service_hall::rules::{Rules, Way};
use crate::proved::service_journal::write_ahead::WriteAhead;
use crate::proved::text_player::service::Service;

/// A service, and the rules for its clients.
pub struct Reading<D> {
    /// The service.
    pub service: D,
    /// Whether the history stores reads, and what clients may ask for.
    pub rules: Rules,
}

// Puts the next token into the slot of the number that an identity holds, and returns it (`Hall::raise`).
fn raise<R>(rt: &R, service: &mut WriteAhead, id: u64, view: &mut View) -> Reply<()> {
    match service.hall().next_token(id) {
        Some(token) => token_reply(token, service.apply(rt, Event::Put(id, token), view)),
        None => Reply::Refused(Refusal::OutOfRange),
    }
}

impl<R> Service<R> for Reading<Hall> {
    fn apply(&mut self, _rt: &R, event: Event, view: &mut View) -> Reply<()> {
        self.service.serve_short(self.rules, event, view)
    }

    fn owner(&mut self, _rt: &R, n: u64) -> Reply<View> {
        self.service.owner(n)
    }
}

impl<R> Service<R> for Reading<WriteAhead> {
    fn apply(&mut self, rt: &R, event: Event, view: &mut View) -> Reply<()> {
        match self.rules.way_of(event) {
            Way::Applied => self.service.apply(rt, event, view),
            Way::Read(id) => self.service.hall().read(id),
            Way::Raised(id) => raise(rt, &mut self.service, id, view),
            Way::Barred => Reply::Refused(Refusal::OutOfRange),
        }
    }

    fn owner(&mut self, rt: &R, n: u64) -> Reply<View> {
        self.service.owner(rt, n)
    }
}
