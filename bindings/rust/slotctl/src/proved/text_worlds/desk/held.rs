// Erased by bindings/rust/erase from crates/text_worlds/src/desk/held.rt, sha256 23917a0ec6c96dd08b05589b3a8620cec4e775586b063f6b502d48b5f34da7af.
//! What a register of a desk holds.

use crate::proved::model_renaming::over::grid_register::{GridRegister, GridValue};
use crate::proved::model_splitter::tree::register::{TreeRegister, TreeValue};
use crate::proved::model_steps::place::Place;
use crate::proved::model_steps::record::Segment;
use crate::proved::text_worlds::desk::coming::Register;

/// The most doors of a grid: those of a grid for 16 participants.
pub const MOST_DOORS: Place = 136;

/// X (`part` is 0) or Y (`part` is 1) of a door, or `None` past the last door.
fn door_number(place: Place, part: usize) -> Option<GridRegister> {
    if place < MOST_DOORS {
        Some(GridRegister::Door(2 * place as usize + part))
    } else {
        None
    }
}

/// The register of a grid that this is, or `None` if a grid has none such.
pub(crate) fn register_in_grid(register: Register) -> Option<GridRegister> {
    match register {
        Register::X(place) => door_number(place, 0),
        Register::Y(place) => door_number(place, 1),
        Register::Mark(_) => None,
        Register::Segment(place) => Some(GridRegister::Segment(place)),
    }
}

/// The register of a tree that this is.
pub(crate) fn register_in_tree(register: Register) -> TreeRegister {
    match register {
        Register::X(node) => TreeRegister::X(node),
        Register::Y(node) => TreeRegister::Y(node),
        Register::Mark(node) => TreeRegister::Mark(node),
        Register::Segment(node) => TreeRegister::Contents(node),
    }
}

/// The proposal in a segment, or `None` if the segment is empty.
fn proposed_in(segment: &Segment) -> Option<u64> {
    match segment {
        Some(record) => Some(record.value),
        None => None,
    }
}

/// The word or the proposal in a register of a grid.
pub(crate) fn held_by_grid(value: GridValue) -> Option<u64> {
    match &value {
        GridValue::Word(word) => Some(*word),
        GridValue::Contents(segment) => proposed_in(segment),
    }
}

/// The word or the proposal in a register of a tree.
pub(crate) fn held_by_tree(value: TreeValue) -> Option<u64> {
    match &value {
        TreeValue::Word(word) => Some(*word),
        TreeValue::Contents(segment) => proposed_in(segment),
    }
}
