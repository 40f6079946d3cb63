// Erased by bindings/rust/erase from crates/model_snapshot/src/world.rt, sha256 3f92c8cc396af170481c2780f711db44deaba64090b528b846a439cef7403384.
//! A snapshot object, taken step by step.

use crate::kit::alloc::Allocator;
use crate::proved::model_snapshot::client::{
    Client, OnWay, SnapReply, ToScan, ToUpdate, MOST_UPDATES,
};
use crate::proved::model_snapshot::places::{PlaceWalker, Places};
use crate::proved::model_steps::note::Note;
use crate::proved::model_steps::place::Place;
use crate::proved::model_steps::refusal::{NoMemory, Refusal};
use crate::proved::model_steps::world::World;

/// A snapshot object over places, whose participants update and scan step by step (Afek et al. 1993).
pub struct SnapWorld<W: Places, A: Allocator> {
    world: World<Client<W::Walker, W::Walk>, W, A>,
}

impl<W: Places, A: Allocator> SnapWorld<W, A> {
    /// Returns the most participants.
    pub fn most(&self) -> usize {
        self.world.most()
    }

    /// Returns the error that `begin` would return, or `None` if it would succeed.
    pub fn begin_refusal(&self, id: u64) -> Option<Refusal> {
        self.world.begin_refusal(id)
    }

    /// Returns the place of a participant, or `None` if it has not reached one or has not begun.
    pub fn place_of(&self, id: u64) -> Option<Place> {
        self.world.program(id)?.walker.place()
    }

    /// Returns a participant, for observers, or `None` if the identity has not begun. Its `next` is its next access.
    pub fn client(&self, id: u64) -> Option<&Client<W::Walker, W::Walk>> {
        self.world.program(id)
    }

    /// Returns the places with their segments, for observers.
    pub fn places(&self) -> &W {
        self.world.memory()
    }
}

impl<W: Places, A: Allocator> SnapWorld<W, A>
where
    W::Walker: Copy,
    W::Walk: Copy,
{
    /// Makes a snapshot object over these places, in which no participant has begun.
    ///
    /// # Errors
    ///
    /// `NoMemory`: the allocation of room for the participants failed.
    pub fn new(alloc: A, places: W) -> Result<Self, Refusal> {
        let most = places.most();
        Ok(SnapWorld {
            world: World::new(alloc, places, most)?,
        })
    }

    /// Adds participant `id`, at the start of its way to a place. This makes no access.
    ///
    /// # Errors
    ///
    /// An error changes nothing. The first that applies is returned:
    ///
    /// - `ZeroIdentity`: `id` is 0.
    /// - `AlreadyBegun`: `id` has begun.
    /// - `Full`: as many participants as the object takes have begun.
    pub fn begin(&mut self, id: u64) -> Result<(), Refusal> {
        let begun = self.world.participants().len();
        let places = self.world.memory();
        let client = Client::new(id, places.walker(begun, id), places.walk());
        self.world.begin(id, client)
    }

    /// Asks for an update of the segment of `id` with `value`, which the next steps make. This makes no access.
    ///
    /// # Errors
    ///
    /// An error changes nothing. The first that applies is returned:
    ///
    /// - `NotBegun`: `id` has not begun.
    /// - `AlreadyBegun`: an operation of `id`, or its way to a place, is pending.
    /// - `Spent`: `id` was asked for 1,000,000 updates.
    pub fn update(&mut self, id: u64, value: u64) -> Result<(), Refusal> {
        let Some(client) = self.world.program(id) else {
            return Err(Refusal::NotBegun);
        };
        if !client.is_idle() {
            return Err(Refusal::AlreadyBegun);
        }
        if MOST_UPDATES <= client.updates {
            return Err(Refusal::Spent);
        }
        self.world.ask(id, ToUpdate { value })
    }

    /// Asks for a scan of `id`, which the next steps make. This makes no access.
    ///
    /// # Errors
    ///
    /// An error changes nothing. The first that applies is returned:
    ///
    /// - `NotBegun`: `id` has not begun.
    /// - `AlreadyBegun`: an operation of `id`, or its way to a place, is pending.
    pub fn scan(&mut self, id: u64) -> Result<(), Refusal> {
        let Some(client) = self.world.program(id) else {
            return Err(Refusal::NotBegun);
        };
        if !client.is_idle() {
            return Err(Refusal::AlreadyBegun);
        }
        self.world.ask(id, ToScan)
    }

    /// Makes the step of participant `id`, without a copy of the segment, if it is a read after which its scan goes on.
    ///
    /// Returns whether it did; the step's reply is then `Quiet`. If not, nothing has changed, and `step` makes the
    /// step.
    #[inline(always)]
    pub fn read_on(&mut self, id: u64) -> bool {
        self.world.read_on(id)
    }

    /// Makes the step of participant `id`, without a copy of a value, if it is one of its way to a place.
    ///
    /// Returns the note of that step, or `None` if it made none. Nothing has changed then, and `step` makes the step.
    ///
    /// # Errors
    ///
    /// `NoMemory`: the access needed memory and the allocation failed. Nothing has changed, and the caller may repeat
    /// the step.
    pub fn walk_on(&mut self, id: u64) -> Result<Option<Note<Place>>, NoMemory> {
        self.world.take::<OnWay>(id)
    }

    /// Makes any other step. It is a function of its own, so that a read of a scan that goes on has no room of a
    /// segment to clear.
    #[inline(never)]
    fn take_step(&mut self, id: u64) -> Result<SnapReply, Refusal> {
        let Some(client) = self.world.program(id) else {
            return Err(Refusal::NotBegun);
        };
        if client.is_idle() {
            return Err(Refusal::Finished);
        }
        match self.world.step(id) {
            Ok(note) => Ok(SnapReply::of_step(note)),
            Err(refusal) => Err(refusal),
        }
    }

    /// Makes one step of participant `id`: one access. Returns what the step completed.
    ///
    /// # Errors
    ///
    /// An error changes nothing. The first that applies is returned:
    ///
    /// - `NotBegun`: `id` has not begun.
    /// - `Finished`: nothing of `id` is pending.
    /// - `NoMemory`: the step is on the way to a place, and an allocation failed. The caller may repeat the step.
    ///
    /// # Steps
    ///
    /// Let b have begun, and a walk over the segments make at most r reads. A scan takes at most (b + 1)r steps, each a
    /// read. An update takes at most one step more, its write. A solo run takes fewer (`law_of_steps_alone`).
    #[inline(always)]
    pub fn step(&mut self, id: u64) -> Result<SnapReply, Refusal> {
        if self.read_on(id) {
            return Ok(SnapReply::Quiet);
        }
        if let Some(note) = self.walk_on(id)? {
            return Ok(SnapReply::of_way(note));
        }
        self.take_step(id)
    }
}
