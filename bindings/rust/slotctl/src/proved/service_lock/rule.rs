// Erased by bindings/rust/erase from crates/service_lock/src/rule.rt, sha256 ebcabe8427a4a106afe03932729e81c95850f1a784957907b176b217fb43c1df.
//! The invariant of a book of one word.

use crate::kit::logbook::{Gain, Play, Rule};

/// The invariant of a book: its word is the length of the history.
pub struct Entries;

impl<E> Rule<E, u64> for Entries {}

/// What callers exchange by the book: nothing.
pub struct Nothing;

impl<E> Gain<E, u64> for Nothing {}

/// A step that appends an entry.
pub struct Adding;

impl<E> Play<E, u64> for Adding {}
