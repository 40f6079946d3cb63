// Erased by bindings/rust/erase from crates/model_splitter/src/grid/world.rt, sha256 dc345076a66f67f256099cea1e9d1c4fcebfd2bc37c99b8ffde44014d2a80606.
//! A world whose participants walk through one grid.

use crate::kit::alloc::Allocator;
use crate::kit::Clone;
use crate::proved::model_splitter::grid::door::Door;
use crate::proved::model_splitter::grid::walker::Walker;
use crate::proved::model_steps::memory::Memory;
use crate::proved::model_steps::note::Note;
use crate::proved::model_steps::place::Place;
use crate::proved::model_steps::refusal::Refusal;
use crate::proved::model_steps::world::World;

/// Participants that walk through one grid, each to a place of its own.
pub struct GridWorld<A: Allocator> {
    world: World<Walker, Memory<u64, A>, A>,
    _doors: usize,
}

impl<A: Allocator + Clone> GridWorld<A> {
    /// Makes a grid that no participant has entered, for at most `most` participants. No other call allocates.
    ///
    /// # Errors
    ///
    /// - `OutOfRange`: `most` is not from 1 to 16.
    /// - `NoMemory`: an allocation failed.
    pub fn new(alloc: A, most: usize) -> Result<Self, Refusal> {
        if most < 1 || 16 < most {
            return Err(Refusal::OutOfRange);
        }
        open(alloc, most)
    }

    /// Adds participant `id`, whose walk is at the corner and has made no access.
    ///
    /// # Errors
    ///
    /// An error changes nothing. The first that applies is returned:
    ///
    /// - `ZeroIdentity`: `id` is 0.
    /// - `AlreadyBegun`: `id` has begun.
    /// - `Full`: as many participants as the world takes have begun.
    pub fn begin(&mut self, id: u64) -> Result<(), Refusal> {
        self.world.begin(id, Walker::new(id, Door::corner()))
    }

    /// Makes one step of the walk of `id`: one access. Returns the place if the walk ends with it.
    ///
    /// # Errors
    ///
    /// An error changes nothing. The first that applies is returned:
    ///
    /// - `NotBegun`: `id` has not begun.
    /// - `Finished`: the walk of `id` has ended.
    ///
    /// # Steps
    ///
    /// A walk makes at most `4b`, where `b` participants have begun (Moir and Anderson 1995).
    pub fn step(&mut self, id: u64) -> Result<Option<Place>, Refusal> {
        self.world.step(id).map(Note::outcome)
    }
}

/// A grid that no participant has entered; `NoMemory` if an allocation failed.
fn open<A: Allocator + Clone>(alloc: A, most: usize) -> Result<GridWorld<A>, Refusal> {
    let registers = most * (most + 1);
    let memory = Memory::new(alloc.clone()?, 0, registers, 0)?;
    let world = World::new(alloc, memory, most)?;
    Ok(GridWorld {
        world,
        _doors: registers / 2,
    })
}
