// Erased by bindings/rust/erase from crates/model_renaming/src/over/tree_walk.rt, sha256 5fc651ee12c2974cbc1484190dbff9cd747fc7b34f1de570a137461f7c16d4a5.
//! A walk over the segments of a tree.

use crate::proved::model_snapshot::walk::SegmentWalk;
use crate::proved::model_splitter::tree::collect_walk::CollectWalk;
use crate::proved::model_splitter::tree::register::{TreeRegister, TreeValue};
use crate::proved::model_steps::place::Place;
use crate::proved::model_steps::record::{Record, Segment};

/// A walk over the segments of the marked nodes: each node first, then its left subtree, then its right one.
#[derive(Clone, Copy, Debug, PartialEq, Eq)]
pub struct TreeWalk {
    /// The walk over marks and segments.
    pub walk: CollectWalk,
}

impl SegmentWalk for TreeWalk {
    type Reg = TreeRegister;

    type Value = TreeValue;

    fn next(&self) -> TreeRegister {
        self.walk.next()
    }

    fn place(&self) -> Option<Place> {
        self.walk.place()
    }

    fn resume(&mut self, got: &TreeValue) -> bool {
        self.walk.resume(got)
    }

    fn segment(place: Place) -> TreeRegister {
        TreeRegister::Contents(place)
    }

    fn stored(segment: Segment) -> TreeValue {
        TreeValue::Contents(segment)
    }

    fn content(value: &TreeValue) -> Option<&Record> {
        CollectWalk::content(value)
    }
}
