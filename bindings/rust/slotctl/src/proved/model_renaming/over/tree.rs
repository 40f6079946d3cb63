// Erased by bindings/rust/erase from crates/model_renaming/src/over/tree.rt, sha256 717f6501da1e16917d26a9d364e73c230b172adf0e138ad91957363dfe2f8d1b.
//! Places in a tree that grows.

use crate::kit::alloc::Allocator;
use crate::kit::Clone;
use crate::proved::model_renaming::over::tree_walk::TreeWalk;
use crate::proved::model_renaming::over::tree_walker::TreeWalker;
use crate::proved::model_snapshot::places::Places;
use crate::proved::model_splitter::tree::collect_walk::CollectWalk;
use crate::proved::model_splitter::tree::register::{TreeRegister, TreeValue};
use crate::proved::model_splitter::tree::tree::Tree;
use crate::proved::model_splitter::tree::walker::Walker;
use crate::proved::model_steps::access::{Access, Answer};
use crate::proved::model_steps::memory::StepMemory;
use crate::proved::model_steps::note::Note;
use crate::proved::model_steps::place::Place;
use crate::proved::model_steps::refusal::{NoMemory, Refusal};

/// A tree of splitters with a segment at each node. The node at which a participant's walk stops is its place.
///
/// Each node is allocated when a walk first reaches it.
pub struct TreePlaces<A: Allocator> {
    tree: Tree<A>,
    most: usize,
}

impl<A: Allocator> TreePlaces<A> {
    /// Makes a tree with no node, for `most` participants. This allocates nothing.
    ///
    /// # Errors
    ///
    /// `OutOfRange`: `most` is not from 1 to 64.
    pub fn new(alloc: A, most: usize) -> Result<Self, Refusal> {
        if most < 1 || 64 < most {
            return Err(Refusal::OutOfRange);
        }
        Ok(TreePlaces {
            tree: Tree::new(alloc),
            most,
        })
    }

    /// Returns the value of a register. This is no access: it is for observers.
    pub fn value(&self, register: TreeRegister) -> TreeValue {
        self.tree.read(register)
    }
}

impl<A: Allocator + Clone> StepMemory for TreePlaces<A> {
    type Reg = TreeRegister;

    type Value = TreeValue;

    fn access(
        &mut self,
        a: Access<TreeRegister, TreeValue>,
    ) -> Result<Answer<TreeValue>, NoMemory> {
        self.tree.access(a)
    }

    fn look(&self, register: &TreeRegister) -> Option<&TreeValue> {
        self.tree.look(register)
    }
}

impl<A: Allocator + Clone> Places for TreePlaces<A> {
    type Walker = TreeWalker;

    type Walk = TreeWalk;

    fn most(&self) -> usize {
        self.most
    }

    fn walker(&self, _begun: usize, identity: u64) -> TreeWalker {
        TreeWalker {
            walker: Walker::new(identity),
        }
    }

    fn walk(&self) -> TreeWalk {
        TreeWalk {
            walk: CollectWalk::new(),
        }
    }

    fn walk_on(&mut self, walker: &mut TreeWalker) -> Result<Option<Note<Place>>, NoMemory> {
        self.tree.walk_on(&mut walker.walker)
    }
}
