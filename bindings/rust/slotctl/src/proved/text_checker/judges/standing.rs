// Erased by bindings/rust/erase from crates/text_checker/src/judges/standing.rt, sha256 072a66a9d351606909be2b9b4ef373d36c6cccd9aaeb7ff5f3afa3314a8241c9.
//! What is kept of a participant.

use crate::proved::model_steps::place::Place;

/// The proposals of a participant.
#[derive(Clone, Copy)]
pub struct Turn {
    /// The index of its proposal in a row of the moments.
    pub seat: usize,
    /// The number of proposals that it has made.
    pub count: u64,
    /// The number of the moment of its last proposal, if it has made one.
    pub since: usize,
    /// Its last proposal, if it has made one.
    pub number: u8,
}

/// What is kept of a participant.
#[derive(Clone, Copy)]
pub struct Standing {
    /// Its place, or `None`.
    pub place: Option<Place>,
    /// Its name, or `None`.
    pub name: Option<u64>,
    /// Whether it is spent.
    pub spent: bool,
    /// Its proposals.
    pub turn: Turn,
}
