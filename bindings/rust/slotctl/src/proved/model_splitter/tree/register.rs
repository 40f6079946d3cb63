// Erased by bindings/rust/erase from crates/model_splitter/src/tree/register.rt, sha256 aea0847180bc64c7a6719db1ff5dfa7d923dacb9b8d84db2833c9eb0d9e48548.
//! The names of the registers of a tree, and their values.

use crate::proved::model_steps::place::Place;
use crate::proved::model_steps::record::Segment;

/// The root, at which every walk begins.
pub(crate) const ROOT: Place = 1;

/// The value of a node's mark once a walk has reached the node; it is 0 before.
pub(crate) const MARKED: u64 = 1;

/// A register of the node with this number. The root is node 1. The children of node p are 2p (down) and 2p + 1
/// (right).
#[derive(Clone, Copy, Debug, PartialEq, Eq)]
pub enum TreeRegister {
    /// The mark: 0 at first, and 1 once a walk has reached the node. A walk writes it before it visits the node's
    /// splitter.
    Mark(Place),
    /// X of the node's splitter: 0 at first, then an identity.
    X(Place),
    /// Y of the node's splitter: 0 at first, and 1 once it is set.
    Y(Place),
    /// The segment of the participant whose place the node is.
    Contents(Place),
}

/// The value of a register of a tree.
#[derive(Clone, Copy, Debug)]
pub enum TreeValue {
    /// The value of a mark, of X or of Y.
    Word(u64),
    /// The value of a segment.
    Contents(Segment),
}

/// A value to write. A segment takes a kilobyte, so it is lent.
#[derive(Clone, Copy)]
pub enum WrittenValue<'a> {
    /// The new value of a mark, of X or of Y.
    Word(u64),
    /// The new value of a segment.
    Contents(&'a Segment),
}

impl TreeValue {
    /// Lends this value to be written.
    pub fn to_write(&self) -> WrittenValue<'_> {
        match self {
            TreeValue::Word(word) => WrittenValue::Word(*word),
            TreeValue::Contents(segment) => WrittenValue::Contents(segment),
        }
    }
}

impl TreeRegister {
    /// Returns the number of the node whose register it is.
    pub fn node(self) -> Place {
        match self {
            TreeRegister::Mark(place) => place,
            TreeRegister::X(place) => place,
            TreeRegister::Y(place) => place,
            TreeRegister::Contents(place) => place,
        }
    }

    /// Whether it is a mark and this value sets it.
    pub fn is_set_by(self, value: WrittenValue) -> bool {
        match (self, value) {
            (TreeRegister::Mark(_), WrittenValue::Word(word)) => word == MARKED,
            _ => false,
        }
    }
}
