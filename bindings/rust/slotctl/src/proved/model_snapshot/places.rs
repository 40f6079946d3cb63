// Erased by bindings/rust/erase from crates/model_snapshot/src/places.rt, sha256 54975178484ebe85cf9b6fa653789eba321504603130274c79ba4b50892076c7.
//! What gives participants places.

use crate::proved::model_snapshot::walk::SegmentWalk;
use crate::proved::model_steps::memory::StepMemory;
use crate::proved::model_steps::note::Note;
use crate::proved::model_steps::place::Place;
use crate::proved::model_steps::program::StepProgram;
use crate::proved::model_steps::refusal::NoMemory;

/// A way to a place: a program of one access a step, which ends with the place.
pub trait PlaceWalker: Sized + StepProgram<Output = Place> {
    /// Returns the place, or `None` if the way has not reached it.
    fn place(&self) -> Option<Place>;
}

/// A memory of segments, each at a place, in which each participant gets a place of its own.
///
/// The memory also has the registers that the ways to places need. `specs/Places.antt` states what an implementor
/// proves.
pub trait Places: Sized + StepMemory {
    /// The way of a participant to its place.
    type Walker: PlaceWalker<Reg = Self::Reg, Value = Self::Value, Output = Place>;

    /// A walk over all segments that may be in use.
    type Walk: SegmentWalk<Reg = Self::Reg, Value = Self::Value>;

    /// Returns the most participants: at most 64.
    fn most(&self) -> usize;

    /// Returns the way to a place of `identity`, which begins after `begun` others.
    fn walker(&self, begun: usize, identity: u64) -> Self::Walker;

    /// Returns a walk that has read nothing.
    fn walk(&self) -> Self::Walk;

    /// Makes the next step of a way in place, without a copy of a value, and returns the note of that step.
    ///
    /// Returns `None` if it made no step. Nothing has changed then. The default makes none.
    ///
    /// # Errors
    ///
    /// `NoMemory`: the access needed memory and the allocation failed. Nothing has changed, and the caller may repeat
    /// the step.
    fn walk_on(&mut self, _walker: &mut Self::Walker) -> Result<Option<Note<Place>>, NoMemory> {
        Ok(None)
    }
}
