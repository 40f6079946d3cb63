// Erased by bindings/rust/erase from crates/text_worlds/src/grid_world.rt, sha256 10c9d4a7308dc6f878c65794ee9090efb8c9fd7b0b78b4374e3e54ed92134f7a.
//! A grid as a world: it answers events.

use crate::kit::alloc::Allocator;
use crate::kit::Clone;
use crate::proved::model_asked::config::Config;
use crate::proved::model_asked::event::Event;
use crate::proved::model_asked::reply::Reply;
use crate::proved::model_splitter::grid::world::GridWorld;
use crate::proved::model_steps::refusal::Refusal;
use crate::proved::model_steps::view::View;
use crate::proved::text_player::service::Service;
use crate::proved::text_worlds::outcomes::walk_reply;
use crate::proved::text_worlds::world::{Unshared, World};

impl<A: Allocator + Clone> Service<Unshared> for GridWorld<A> {
    #[inline(always)]
    fn apply(&mut self, _rt: &Unshared, event: Event, _view: &mut View) -> Reply<()> {
        match event {
            Event::Begin(id) => Reply::of_done(self.begin(id)),
            Event::Step(id) => walk_reply(self.step(id)),
            Event::Enter(_)
            | Event::Probe(_)
            | Event::Seek(_)
            | Event::Leave(_)
            | Event::Put(_, _)
            | Event::Get(_)
            | Event::Widen(_) => unreachable!(),
        }
    }

    fn owner(&mut self, _rt: &Unshared, _n: u64) -> Reply<View> {
        Reply::Refused(Refusal::OutOfRange)
    }
}

impl<A: Allocator + Clone> World<A, Unshared> for GridWorld<A> {
    fn open(alloc: A, config: Config) -> Result<Self, Refusal> {
        GridWorld::new(alloc, config.m as usize)
    }
}
