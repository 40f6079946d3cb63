// Erased by bindings/rust/erase from crates/model_renaming/src/over/grid.rt, sha256 ee54325f6ec3772bc54112c114ebd14b7a96e4b527f5c298c96a0ea018ba7120.
//! A grid of doors, with a segment at each.

use crate::kit::alloc::Allocator;
use crate::kit::Clone;
use crate::kit::Vec;
use crate::proved::model_renaming::over::grid_register::{GridRegister, GridValue};
use crate::proved::model_renaming::over::grid_walk::GridWalk;
use crate::proved::model_renaming::over::grid_walker::GridWalker;
use crate::proved::model_snapshot::places::Places;
use crate::proved::model_splitter::grid::door::Door;
use crate::proved::model_splitter::grid::walker::Walker;
use crate::proved::model_steps::access::{Access, Answer};
use crate::proved::model_steps::memory::{Memory, StepMemory};
use crate::proved::model_steps::note::Note;
use crate::proved::model_steps::place::Place;
use crate::proved::model_steps::program::StepProgram;
use crate::proved::model_steps::record::Segment;
use crate::proved::model_steps::refusal::{NoMemory, Refusal};

/// The doors of a grid, with a segment at each. A segment is stored as the value of its register, so that it can be
/// lent.
///
/// There is room for all segments, and those up to the last that was written are made. Each behind them is `empty`.
pub struct Grid<A: Allocator> {
    doors: Memory<u64, A>,
    segments: Vec<GridValue, A>,
    empty: GridValue,
    places: usize,
    most: usize,
}

/// Adds so many empty segments, for which there is room.
fn add_empty<A: Allocator>(segments: &mut Vec<GridValue, A>, count: usize) {
    for _i in 0..count {
        segments.push_reserved(GridValue::Contents(None));
    }
}

impl<A: Allocator + Clone> Grid<A> {
    /// Makes a grid that no participant has entered, with empty segments, for `most` participants. No access allocates.
    ///
    /// # Errors
    ///
    /// - `OutOfRange`: `most` is not from 1 to 16.
    /// - `NoMemory`: an allocation failed.
    pub fn new(alloc: A, most: usize) -> Result<Self, Refusal> {
        if most < 1 || 16 < most {
            return Err(Refusal::OutOfRange);
        }
        Self::with_room(alloc, most)
    }

    /// A grid that no participant has entered; `NoMemory` if an allocation failed.
    fn with_room(alloc: A, most: usize) -> Result<Self, Refusal> {
        let registers = most * (most + 1);
        let doors = Memory::new(alloc.clone()?, 0, registers, 0)?;
        let places = registers / 2;
        let segments = Vec::with_capacity(alloc, places)?;
        Ok(Grid {
            doors,
            segments,
            empty: GridValue::Contents(None),
            places,
            most,
        })
    }
}

impl<A: Allocator> Grid<A> {
    /// Returns the segment at a place, which is empty if there is no such place. This is no access: it is for
    /// observers.
    pub fn segment_at(&self, place: Place) -> Segment {
        if place < self.segments.len() as u128 {
            self.segments[place as usize].contents()
        } else {
            None
        }
    }

    /// Returns the value of a register. This is no access: it is for observers.
    pub fn value(&self, register: GridRegister) -> GridValue {
        match register {
            GridRegister::Door(number) => GridValue::Word(self.doors.value(number)),
            GridRegister::Segment(place) => GridValue::Contents(self.segment_at(place)),
        }
    }

    /// Writes the segment at a place, if there is such a place.
    fn put(&mut self, place: Place, segment: Segment) {
        if place < self.places as u128 {
            let at = place as usize;
            let lacking = (at + 1).saturating_sub(self.segments.len());
            add_empty(&mut self.segments, lacking);
            self.segments[at] = GridValue::Contents(segment);
        }
    }
}

impl<A: Allocator> StepMemory for Grid<A> {
    type Reg = GridRegister;

    type Value = GridValue;

    fn access(
        &mut self,
        a: Access<GridRegister, GridValue>,
    ) -> Result<Answer<GridValue>, NoMemory> {
        Ok(match a {
            Access::Read(register) => Answer::Value(self.value(register)),
            Access::Write(GridRegister::Door(r), GridValue::Word(word)) => {
                let _ = self.doors.access(Access::Write(r, word));
                Answer::Done
            }
            Access::Write(GridRegister::Segment(place), GridValue::Contents(segment)) => {
                self.put(place, segment);
                Answer::Done
            }
            Access::Write(GridRegister::Door(_), GridValue::Contents(_)) => Answer::Done,
            Access::Write(GridRegister::Segment(_), GridValue::Word(_)) => Answer::Done,
            Access::TestAndSet(_) => Answer::WasSet(false),
            Access::Clear(_) => Answer::Done,
            Access::Nothing => Answer::Done,
        })
    }

    fn look(&self, register: &GridRegister) -> Option<&GridValue> {
        let GridRegister::Segment(place) = *register else {
            return None;
        };
        if place < self.segments.len() as u128 {
            Some(&self.segments[place as usize])
        } else {
            Some(&self.empty)
        }
    }
}

impl<A: Allocator> Places for Grid<A> {
    type Walker = GridWalker;

    type Walk = GridWalk;

    fn most(&self) -> usize {
        self.most
    }

    fn walker(&self, _begun: usize, identity: u64) -> GridWalker {
        GridWalker {
            walker: Walker::new(identity, Door::corner()),
        }
    }

    fn walk(&self) -> GridWalk {
        GridWalk {
            at: 0,
            most: self.places,
        }
    }

    fn walk_on(&mut self, walker: &mut GridWalker) -> Result<Option<Note<Place>>, NoMemory> {
        match walker.walker.next() {
            Access::Read(r) => {
                let word = self.doors.value(r);
                Ok(Some(walker.walker.resume(Answer::Value(word))))
            }
            Access::Write(r, word) => {
                let _done = self.doors.access(Access::Write(r, word));
                Ok(Some(walker.walker.resume(Answer::Done)))
            }
            Access::TestAndSet(_) => Ok(None),
            Access::Clear(_) => Ok(None),
            Access::Nothing => Ok(None),
        }
    }
}
