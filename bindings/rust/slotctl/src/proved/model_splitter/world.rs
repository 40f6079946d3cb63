// Erased by bindings/rust/erase from crates/model_splitter/src/world.rt, sha256 8cdb2d7d99a48a5aba41fd908501c360864704a7d0ae19d5842880823e6faf8a.
//! A world whose participants visit one splitter.

use crate::kit::alloc::Allocator;
use crate::kit::Clone;
use crate::proved::model_splitter::visitor::Visitor;
use crate::proved::model_splitter::way::Way;
use crate::proved::model_steps::memory::Memory;
use crate::proved::model_steps::note::Note;
use crate::proved::model_steps::refusal::Refusal;
use crate::proved::model_steps::world::World;

/// Participants that visit one splitter, each once.
pub struct SplitterWorld<A: Allocator> {
    world: World<Visitor<usize>, Memory<u64, A>, A>,
}

impl<A: Allocator + Clone> SplitterWorld<A> {
    /// Makes a splitter that no participant has entered, for at most `most` participants. No other call allocates.
    ///
    /// # Errors
    ///
    /// - `OutOfRange`: `most` is not from 1 to 16.
    /// - `NoMemory`: an allocation failed.
    pub fn new(alloc: A, most: usize) -> Result<Self, Refusal> {
        if most < 1 || 16 < most {
            return Err(Refusal::OutOfRange);
        }
        open(alloc, most)
    }

    /// Adds participant `id`, whose visit has made no access.
    ///
    /// # Errors
    ///
    /// An error changes nothing. The first that applies is returned:
    ///
    /// - `ZeroIdentity`: `id` is 0.
    /// - `AlreadyBegun`: `id` has begun.
    /// - `Full`: as many participants as the world takes have begun.
    pub fn begin(&mut self, id: u64) -> Result<(), Refusal> {
        self.world.begin(id, Visitor::new(id, 0, 1))
    }

    /// Makes one step of the visit of `id`: one access. Returns the way if the visit ends with it.
    ///
    /// # Errors
    ///
    /// An error changes nothing. The first that applies is returned:
    ///
    /// - `NotBegun`: `id` has not begun.
    /// - `Finished`: the visit of `id` has ended.
    ///
    /// # Steps
    ///
    /// A visit makes at most 4.
    pub fn step(&mut self, id: u64) -> Result<Option<Way>, Refusal> {
        self.world.step(id).map(Note::outcome)
    }
}

/// A splitter that no participant has entered; `NoMemory` if an allocation failed.
fn open<A: Allocator + Clone>(alloc: A, most: usize) -> Result<SplitterWorld<A>, Refusal> {
    let memory = Memory::new(alloc.clone()?, 0, 2, 0)?;
    let world = World::new(alloc, memory, most)?;
    Ok(SplitterWorld { world })
}
