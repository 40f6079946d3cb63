// Erased by bindings/rust/erase from crates/text_worlds/src/desk_world.rt, sha256 d16132fbb1c24c973a6fa88a981ba81053ddde33119a2fbb46cc992b0302ff7c.
//! A desk as a world: it answers events, and returns the identity that has a name.

use crate::kit::alloc::Allocator;
use crate::kit::Clone;
use crate::proved::model_asked::config::Config;
use crate::proved::model_asked::event::Event;
use crate::proved::model_asked::reply::Reply;
use crate::proved::model_steps::refusal::Refusal;
use crate::proved::model_steps::view::View;
use crate::proved::text_player::service::Service;
use crate::proved::text_worlds::desk::desk::Desk;
use crate::proved::text_worlds::world::{Unshared, World};

impl<A: Allocator + Clone> Service<Unshared> for Desk<A> {
    #[inline(always)]
    fn apply(&mut self, _rt: &Unshared, event: Event, view: &mut View) -> Reply<()> {
        self.apply_short(event, view)
    }

    fn owner(&mut self, _rt: &Unshared, n: u64) -> Reply<View> {
        Desk::owner(self, n)
    }
}

impl<A: Allocator + Clone> World<A, Unshared> for Desk<A> {
    fn open(alloc: A, config: Config) -> Result<Self, Refusal> {
        Desk::new(alloc, config)
    }
}
