// Erased by bindings/rust/erase from crates/model_renaming/src/over/grid_register.rt, sha256 61696842dc41215e252d6ba256e03cc0f754b9afcb3b96ab2b0b19f50e400ace.
//! The registers of a grid with segments.

use crate::proved::model_steps::place::Place;
use crate::proved::model_steps::record::Segment;

/// A register of a grid with segments.
#[derive(Clone, Copy, Debug, PartialEq, Eq)]
pub enum GridRegister {
    /// X or Y of a door, by its number among the doors' registers.
    Door(usize),
    /// The segment at a place.
    Segment(Place),
}

/// The value of a register of a grid with segments.
#[derive(Clone, Copy, Debug)]
pub enum GridValue {
    /// The value of X or of Y.
    Word(u64),
    /// The value of a segment.
    Contents(Segment),
}

impl GridValue {
    /// Returns the segment that this value is, or an empty one if it is the word of a door.
    pub fn contents(&self) -> Segment {
        match self {
            GridValue::Word(_) => None,
            GridValue::Contents(segment) => *segment,
        }
    }
}
