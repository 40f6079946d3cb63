// Erased by bindings/rust/erase from crates/model_renaming/src/places.rt, sha256 9a4ad51af3a585502c57aeff1adecd9428c56c5e0e42515a446ef2f8dcb0255e.
//! Places over which names are given.

use crate::kit::alloc::Allocator;
use crate::kit::Clone;
use crate::proved::model_asked::kind::WorldKind;
use crate::proved::model_renaming::over::grid::Grid;
use crate::proved::model_renaming::over::tree::TreePlaces;
use crate::proved::model_snapshot::places::Places;
use crate::proved::model_steps::refusal::Refusal;

/// Places over which names are given: the world that they serve, and how they are made.
pub trait RenamePlaces<A: Allocator>: Sized + Places {
    /// Returns the world that they serve.
    fn world() -> WorldKind;

    /// Makes places for `most` participants, in which nothing was written.
    ///
    /// # Errors
    ///
    /// `NoMemory`: an allocation failed.
    fn empty(alloc: A, most: usize) -> Result<Self, Refusal>;
}

impl<A: Allocator + Clone> RenamePlaces<A> for Grid<A> {
    fn world() -> WorldKind {
        WorldKind::Rename
    }

    fn empty(alloc: A, most: usize) -> Result<Self, Refusal> {
        Grid::new(alloc, most)
    }
}

impl<A: Allocator + Clone> RenamePlaces<A> for TreePlaces<A> {
    fn world() -> WorldKind {
        WorldKind::Tree
    }

    fn empty(alloc: A, most: usize) -> Result<Self, Refusal> {
        TreePlaces::new(alloc, most)
    }
}
