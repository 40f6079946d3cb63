// Erased by bindings/rust/erase from crates/text_worlds/src/desk/coming.rt, sha256 364fd1d92cb9345b8de12894702034a0bd31813bc483ff3b7ac7d3655950b14a.
//! The access that a participant makes next.

use crate::proved::model_renaming::over::grid_register::{GridRegister, GridValue};
use crate::proved::model_splitter::tree::register::{TreeRegister, TreeValue};
use crate::proved::model_steps::access::Access;
use crate::proved::model_steps::place::Place;
use crate::proved::model_steps::record::Segment;

/// A register of a desk, by the number of its splitter or of its segment.
#[derive(Clone, Copy, Debug, PartialEq, Eq)]
pub enum Register {
    /// X of a splitter.
    X(Place),
    /// Y of a splitter.
    Y(Place),
    /// The mark of a tree's node.
    Mark(Place),
    /// The segment at a place.
    Segment(Place),
}

/// The access that a participant makes next, with the word or the proposal that it writes.
#[derive(Clone, Copy, Debug, PartialEq, Eq)]
pub enum Coming {
    /// It accesses no register.
    Nothing,
    /// It reads this register.
    Read(Register),
    /// It writes this number into this register.
    Write(Register, u64),
}

/// The register with this number of a grid's doors: X of a door if the number is even, Y if it is odd.
fn door_register(number: usize) -> Register {
    if number % 2 == 0 {
        Register::X((number / 2) as Place)
    } else {
        Register::Y((number / 2) as Place)
    }
}

/// The proposal that is written into a segment.
fn proposal_in(segment: Segment) -> u64 {
    match segment {
        Some(record) => record.value,
        None => 0,
    }
}

/// An access to a grid.
pub(crate) fn coming_in_grid(access: Access<GridRegister, GridValue>) -> Coming {
    match access {
        Access::Read(GridRegister::Door(number)) => Coming::Read(door_register(number)),
        Access::Read(GridRegister::Segment(place)) => Coming::Read(Register::Segment(place)),
        Access::Write(GridRegister::Door(number), GridValue::Word(word)) => {
            Coming::Write(door_register(number), word)
        }
        Access::Write(GridRegister::Segment(place), GridValue::Contents(segment)) => {
            Coming::Write(Register::Segment(place), proposal_in(segment))
        }
        _ => Coming::Nothing,
    }
}

/// The register of a tree.
fn tree_register(register: TreeRegister) -> Register {
    match register {
        TreeRegister::Mark(node) => Register::Mark(node),
        TreeRegister::X(node) => Register::X(node),
        TreeRegister::Y(node) => Register::Y(node),
        TreeRegister::Contents(node) => Register::Segment(node),
    }
}

/// An access to a tree.
pub(crate) fn coming_in_tree(access: Access<TreeRegister, TreeValue>) -> Coming {
    match access {
        Access::Read(register) => Coming::Read(tree_register(register)),
        Access::Write(register, TreeValue::Word(word)) => {
            Coming::Write(tree_register(register), word)
        }
        Access::Write(register, TreeValue::Contents(segment)) => {
            Coming::Write(tree_register(register), proposal_in(segment))
        }
        _ => Coming::Nothing,
    }
}
