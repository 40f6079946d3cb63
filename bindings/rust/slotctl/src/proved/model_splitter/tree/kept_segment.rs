// Erased by bindings/rust/erase from crates/model_splitter/src/tree/kept_segment.rt, sha256 3ca84b860197c025b7854da250b108894c9fbc2e20adbbc666977e998f03d42c.
//! A segment, stored as the value of its register.

use crate::proved::model_splitter::tree::register::TreeValue;
use crate::proved::model_steps::record::Segment;

/// A segment, stored as the value of its register, so that it can be lent. Contracts see the segment.
#[derive(Clone, Copy, Debug)]
pub struct KeptSegment {
    value: TreeValue,
}

impl KeptSegment {
    /// Stores a segment.
    pub fn of(segment: Segment) -> Self {
        KeptSegment {
            value: TreeValue::Contents(segment),
        }
    }

    /// Returns the value of its register.
    pub fn value(&self) -> &TreeValue {
        &self.value
    }
}
