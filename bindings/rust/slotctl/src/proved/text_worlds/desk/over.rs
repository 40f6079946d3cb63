// Erased by bindings/rust/erase from crates/text_worlds/src/desk/over.rt, sha256 6b6531902e5c68a4be35f8faec03a012b479b8f16e9bb7a0606389e1f79c7230.
//! A desk over places of one kind.

use crate::kit::alloc::Allocator;
use crate::kit::Clone;
use crate::kit::Vec;
use crate::proved::model_asked::config::Config;
use crate::proved::model_asked::event::Event;
use crate::proved::model_asked::reply::Reply;
use crate::proved::model_pool::pool::Pool;
use crate::proved::model_pool::slots::slots::Slots;
use crate::proved::model_renaming::places::RenamePlaces;
use crate::proved::model_renaming::world::RenameWorld;
use crate::proved::model_steps::access::Access;
use crate::proved::model_steps::place::Place;
use crate::proved::model_steps::program::StepProgram;
use crate::proved::model_steps::refusal::{NoMemory, Refusal};
use crate::proved::model_steps::view::View;
use crate::proved::text_worlds::desk::outcomes::{of_probe, of_seek, of_step};

/// A renaming world over these places, and slots over a pool.
pub(crate) struct DeskOver<W: RenamePlaces<A>, A: Allocator> {
    names: RenameWorld<W, A>,
    pub(crate) slots: Slots<u64, A>,
}

/// Slots over a pool of `size` numbers, which may get `most`. Each holds 0. The pool is made last, so that a failed allocation drops
/// the values alone.
fn zero_slots<A: Allocator + Clone>(
    alloc: &A,
    most: u64,
    size: u64,
) -> Result<Slots<u64, A>, Refusal> {
    let values = Vec::from_elem(alloc.clone()?, 0u64, size as usize)?;
    match Pool::new(alloc.clone()?, most, size) {
        Ok(pool) => match Slots::new(pool, values) {
            Ok(slots) => Ok(slots),
            Err(NoMemory) => Err(Refusal::NoMemory),
        },
        Err(refusal) => Err(refusal),
    }
}

impl<W: RenamePlaces<A>, A: Allocator + Clone> DeskOver<W, A>
where
    W::Walker: Copy,
    W::Walk: Copy,
{
    /// Makes a desk of this configuration, on which nothing was done; each slot holds 0.
    ///
    /// `OutOfRange` if the places are not those of the configuration's world, then `NoMemory` if an allocation failed.
    pub(crate) fn new(alloc: A, config: Config) -> Result<Self, Refusal> {
        if !config.world.is_played_over(W::world()) {
            return Err(Refusal::OutOfRange);
        }
        let Ok(slots) = zero_slots(&alloc, config.world.most_numbers(), config.k) else {
            return Err(Refusal::NoMemory);
        };
        match RenameWorld::new(alloc, config) {
            Ok(names) => Ok(DeskOver { names, slots }),
            Err(why) => Err(why),
        }
    }
}

impl<W: RenamePlaces<A>, A: Allocator> DeskOver<W, A> {
    /// Returns the name of a participant, or `None` if it has none.
    pub(crate) fn name_of(&self, id: u64) -> Option<u64> {
        self.names.name_of(id)
    }

    /// Returns the refusal of an event, failed allocations aside, or `None`.
    pub(crate) fn refusal(&self, event: Event) -> Option<Refusal> {
        let pool = self.slots.pool();
        match event {
            Event::Begin(id) => self.names.begin_refusal(id),
            Event::Step(id) => self.names.step_refusal(id),
            Event::Enter(id) => pool.enter_refusal(id),
            Event::Probe(id) | Event::Seek(id) => pool.probe_refusal(id),
            Event::Leave(id) | Event::Put(id, _) | Event::Get(id) => pool.number_of(id).err(),
            Event::Widen(size) => pool.widen_refusal(size),
        }
    }

    /// Returns the memory, for observers.
    pub(crate) fn places(&self) -> &W {
        self.names.snap().places()
    }

    /// Returns the place of a participant, or `None` if it has none.
    pub(crate) fn place_of(&self, id: u64) -> Option<Place> {
        self.names.snap().place_of(id)
    }

    /// Returns the identity that has a name, or a refusal if the number is out of range.
    pub(crate) fn owner(&self, number: u64) -> Reply<View> {
        if number == 0 || 2 * self.names.most() <= number {
            return Reply::Refused(Refusal::OutOfRange);
        }
        Reply::Owner(self.names.owner_of(number))
    }
}

impl<W: RenamePlaces<A>, A: Allocator> DeskOver<W, A>
where
    W::Walker: Copy,
    W::Walk: Copy,
{
    /// Takes one event, makes at most one access, and returns the reply, whose view it puts into `view`.
    #[inline(always)]
    pub(crate) fn apply_short(&mut self, event: Event, view: &mut View) -> Reply<()> {
        match event {
            Event::Begin(id) => Reply::of_done(self.names.begin(id)),
            Event::Step(id) => of_step(self.names.step_short(id, view)),
            Event::Enter(id) => Reply::of_done(self.slots.enter(id)),
            Event::Probe(id) => of_probe(self.slots.probe(id)),
            Event::Seek(id) => of_seek(self.slots.seek(id)),
            Event::Leave(id) => Reply::of_leave(self.slots.leave(id)),
            Event::Put(id, value) => Reply::of_done(self.slots.put(id, value)),
            Event::Get(id) => Reply::of_value(self.slots.get(id).copied()),
            Event::Widen(size) => Reply::of_done(self.slots.widen(size, 0)),
        }
    }

    /// Returns the access that a participant makes next, or `None` if the identity has not begun.
    pub(crate) fn next_access(&self, id: u64) -> Option<Access<W::Reg, W::Value>> {
        match self.names.snap().client(id) {
            Some(client) => Some(client.next()),
            None => None,
        }
    }
}
