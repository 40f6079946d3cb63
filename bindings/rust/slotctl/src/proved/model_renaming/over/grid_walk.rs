// Erased by bindings/rust/erase from crates/model_renaming/src/over/grid_walk.rt, sha256 541c3eecb9711215bd70b7c9754cf3ece997ecbbf74a903a24cd1687a947ae7d.
//! A walk over the segments of a grid.

use crate::proved::model_renaming::over::grid_register::{GridRegister, GridValue};
use crate::proved::model_snapshot::walk::SegmentWalk;
use crate::proved::model_steps::place::Place;
use crate::proved::model_steps::record::{Record, Segment};

/// A walk over the segments of a grid, by rising place.
#[derive(Clone, Copy, Debug, PartialEq, Eq)]
pub struct GridWalk {
    /// The place whose segment it reads next.
    pub at: usize,
    /// The number of segments.
    pub most: usize,
}

impl SegmentWalk for GridWalk {
    type Reg = GridRegister;

    type Value = GridValue;

    fn next(&self) -> GridRegister {
        GridRegister::Segment(self.at as Place)
    }

    fn place(&self) -> Option<Place> {
        Some(self.at as Place)
    }

    fn resume(&mut self, _got: &GridValue) -> bool {
        if self.at < self.most {
            self.at += 1;
        }
        self.most <= self.at
    }

    fn segment(place: Place) -> GridRegister {
        GridRegister::Segment(place)
    }

    fn stored(segment: Segment) -> GridValue {
        GridValue::Contents(segment)
    }

    fn content(value: &GridValue) -> Option<&Record> {
        match value {
            GridValue::Word(_) => None,
            GridValue::Contents(segment) => segment.as_ref(),
        }
    }
}
