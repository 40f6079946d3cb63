// Erased by bindings/rust/erase from crates/model_renaming/src/over/tree_walker.rt, sha256 aecca249e82892e4252a378f74496858bd62568dee9d199f849359cc8023a2e2.
//! A way down a tree.

use crate::proved::model_snapshot::places::PlaceWalker;
use crate::proved::model_splitter::tree::register::{TreeRegister, TreeValue};
use crate::proved::model_splitter::tree::walker::Walker;
use crate::proved::model_steps::access::{Access, Answer};
use crate::proved::model_steps::note::Note;
use crate::proved::model_steps::place::Place;
use crate::proved::model_steps::program::StepProgram;

/// A walk down a tree to a place: the node at which it stops.
#[derive(Clone, Copy, Debug, PartialEq, Eq)]
pub struct TreeWalker {
    /// The walk, over the registers of the tree.
    pub walker: Walker,
}

impl StepProgram for TreeWalker {
    type Reg = TreeRegister;

    type Value = TreeValue;

    type Output = Place;

    fn next(&self) -> Access<TreeRegister, TreeValue> {
        self.walker.next()
    }

    fn resume(&mut self, got: Answer<TreeValue>) -> Note<Place> {
        self.walker.resume(got)
    }
}

impl PlaceWalker for TreeWalker {
    fn place(&self) -> Option<Place> {
        self.walker.place()
    }
}
