// Erased by bindings/rust/erase from crates/tool_work/src/page/access.rt, sha256 3fea755ae3f7b2d3d14f2b1600bc55c6703665fdce47cb4a9179b4989443b85b.
//! The accesses of a run, in words, and what follows of them.

use crate::kit::alloc::{AllocError, Global};
use crate::kit::itoa::Buffer;
use crate::kit::Vec;
use crate::proved::model_steps::place::Place;
use crate::proved::text_records::text::Text;
use crate::proved::text_worlds::desk::coming::{Coming, Register};
use crate::proved::text_worlds::desk::desk::Desk;

/// Appends a word with its space, and the number of a place.
pub(crate) fn put_word_of_place(
    word: &[u8],
    place: Place,
    out: &mut Text,
) -> Result<(), AllocError> {
    out.put(word)?;
    out.put(Buffer::new().format(place).as_bytes())
}

/// Appends the words of a register.
pub(crate) fn put_register(register: Register, out: &mut Text) -> Result<(), AllocError> {
    match register {
        Register::X(place) => put_word_of_place(b"X ", place, out),
        Register::Y(place) => put_word_of_place(b"Y ", place, out),
        Register::Mark(place) => put_word_of_place(b"mark ", place, out),
        Register::Segment(place) => put_word_of_place(b"segment ", place, out),
    }
}

/// Appends the words of an access, and nothing where there is none.
pub(crate) fn put_access(access: Option<Coming>, out: &mut Text) -> Result<(), AllocError> {
    match access {
        None => Ok(()),
        Some(Coming::Nothing) => Ok(()),
        Some(Coming::Read(register)) => {
            out.put(b"read ")?;
            put_register(register, out)
        }
        Some(Coming::Write(register, word)) => {
            out.put(b"write ")?;
            put_register(register, out)?;
            out.put_word(b" ", word)
        }
    }
}

/// The register that an access reaches.
fn register_at(access: Option<Coming>) -> Option<Register> {
    match access {
        None => None,
        Some(Coming::Nothing) => None,
        Some(Coming::Read(register)) => Some(register),
        Some(Coming::Write(register, _)) => Some(register),
    }
}

/// What stands in the register that an access reaches.
pub(crate) fn held_at(desk: &Desk<Global>, access: Option<Coming>) -> Option<u64> {
    desk.held(register_at(access)?)
}

/// The place of a register.
fn place_in(register: Register) -> Place {
    match register {
        Register::X(place) => place,
        Register::Y(place) => place,
        Register::Mark(place) => place,
        Register::Segment(place) => place,
    }
}

/// Where a place stands among these.
fn find_place(places: &[Place], place: Place) -> Option<usize> {
    places.iter().position(|one| *one == place)
}

/// Keeps a place, once. An error where a growth was refused.
fn keep_place(place: Place, places: &mut Vec<Place>) -> Result<(), AllocError> {
    if find_place(places.as_slice(), place).is_some() {
        return Ok(());
    }
    places.push(place).map_err(AllocError::from)
}

/// Keeps the place that an access reaches, once. An error where a growth was refused.
pub(crate) fn keep_reached(
    access: Option<Coming>,
    places: &mut Vec<Place>,
) -> Result<(), AllocError> {
    match register_at(access) {
        None => Ok(()),
        Some(register) => keep_place(place_in(register), places),
    }
}
