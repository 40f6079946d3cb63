// Erased by bindings/rust/erase from crates/model_splitter/src/tree/collect_walk.rt, sha256 4c06d8c72250e0202194fc03772b5fe5b0fb425f2c08bd6f619365d3dc389363.
//! The walk of a collect.

use crate::proved::model_splitter::tree::register::{TreeRegister, TreeValue, MARKED, ROOT};
use crate::proved::model_steps::place::Place;
use crate::proved::model_steps::record::Record;

/// A walk over the marked nodes: each node first, then its left subtree, then its right one.
///
/// At each node it reads the mark. If the mark is 1, it reads the node's segment, and goes on below the node. It needs
/// no list of nodes: the next node follows from the number of the present one. (This project's own.)
#[derive(Clone, Copy, Debug, PartialEq, Eq)]
pub struct CollectWalk {
    /// The node at which the walk reads next, or 0, which is no node's number, if it is over.
    pub at: Place,
    /// Whether it reads the node's segment next; otherwise it reads the mark.
    pub is_reading_contents: bool,
}

/// Returns the node to read after a node and all below it, or `None` after the whole tree.
///
/// From a right child the walk climbs to the parent. After a left child comes its sibling.
fn after_subtree(place: Place) -> Option<Place> {
    let mut at = place;
    while at % 2 == 1 && ROOT < at {
        at /= 2;
    }
    if at <= ROOT {
        None
    } else {
        Some(at + 1)
    }
}

impl CollectWalk {
    /// Makes a walk whose first read is that of the root's mark.
    pub fn new() -> Self {
        CollectWalk {
            at: ROOT,
            is_reading_contents: false,
        }
    }

    /// Returns the register that it reads next.
    pub fn next(&self) -> TreeRegister {
        if self.is_reading_contents {
            TreeRegister::Contents(self.at)
        } else {
            TreeRegister::Mark(self.at)
        }
    }

    /// Returns the place whose segment it reads next, or `None` if it reads a mark next.
    pub fn place(&self) -> Option<Place> {
        if self.is_reading_contents {
            Some(self.at)
        } else {
            None
        }
    }

    /// Whether it has read a mark that is set.
    fn finds_mark(&self, got: &TreeValue) -> bool {
        if self.is_reading_contents {
            return false;
        }
        match got {
            TreeValue::Word(word) => *word == MARKED,
            TreeValue::Contents(_) => false,
        }
    }

    /// Returns the node to read next if no set mark was read: after a segment, the left child.
    ///
    /// A child whose number does not fit is left out.
    fn next_node(&self) -> Option<Place> {
        if !self.is_reading_contents {
            return after_subtree(self.at);
        }
        match self.at.checked_mul(2) {
            Some(child) => Some(child),
            None => after_subtree(self.at),
        }
    }

    /// Takes the value that was read, and returns whether the walk is over.
    pub fn resume(&mut self, got: &TreeValue) -> bool {
        if self.finds_mark(got) {
            self.is_reading_contents = true;
            return false;
        }
        let next = self.next_node();
        self.at = next.unwrap_or(0);
        self.is_reading_contents = false;
        next.is_none()
    }

    /// Returns the record in the value of a segment, or `None` if the segment is empty or the value is a word.
    pub fn content(value: &TreeValue) -> Option<&Record> {
        match value {
            TreeValue::Word(_) => None,
            TreeValue::Contents(segment) => segment.as_ref(),
        }
    }
}
