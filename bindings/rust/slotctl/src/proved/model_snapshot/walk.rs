// Erased by bindings/rust/erase from crates/model_snapshot/src/walk.rt, sha256 6b424e61f0742af764eb459f884c7f8a9c22979eee8fbb3b7fcb09679f4a222d.
//! Walks over the segments that may be in use.

use crate::proved::model_steps::place::Place;
use crate::proved::model_steps::record::{Record, Segment};

/// A walk over all segments that may be in use, one read after another.
///
/// The next register may depend on what the walk has read. Not every read is of a segment.
pub trait SegmentWalk: Sized {
    /// What names a register.
    type Reg;

    /// What a register holds.
    type Value;

    /// Returns the register of the next read.
    fn next(&self) -> Self::Reg;

    /// Returns the place whose segment the next read reads, or `None` if it reads no segment.
    fn place(&self) -> Option<Place>;

    /// Takes the value that was read, and returns true if and only if the walk is over.
    fn resume(&mut self, got: &Self::Value) -> bool;

    /// Returns the register of the segment at a place.
    fn segment(place: Place) -> Self::Reg;

    /// Returns the value that a register holds for this segment.
    fn stored(segment: Segment) -> Self::Value;

    /// Returns the record of the segment for which a register holds this value, or `None` if the segment is empty.
    fn content(value: &Self::Value) -> Option<&Record>;
}
