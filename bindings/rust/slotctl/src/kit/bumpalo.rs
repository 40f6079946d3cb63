//! An arena, in the place of the kit's `bumpalo`. Stable Rust lets no list take an arena's memory, so each asks the
//! allocator of the program.

use super::alloc::{AllocError, Allocator};

/// An arena on an allocator.
pub struct Bump<A> {
    _alloc: A,
}

impl<A: Allocator> Bump<A> {
    /// `new`: an empty arena.
    pub fn new(alloc: A) -> Bump<A> {
        Bump { _alloc: alloc }
    }

    /// `reset`: forgets what lies there.
    ///
    /// # Errors
    ///
    /// None here.
    pub fn reset(&mut self) -> Result<(), AllocError> {
        Ok(())
    }
}

impl<A: Allocator> Allocator for &Bump<A> {}
