// Erased by bindings/rust/erase from crates/model_splitter/src/grid.rt, sha256 cc1be85a71d6a598b58f06765f66cb8a58bdd82322a8d94a0c59f54864b5df4c.
//! A triangular grid of splitters (Moir and Anderson 1995), in which each participant gets a place of its own.
//!
//! The doors of the grid are splitters. A walk begins at the door in the corner. If it stops at a door, that door is
//! its place. If it goes right or down, it goes on to the next door that way. Not all that enter a door leave it the
//! same way, so a crowd is split at every door. Where `b` participants have begun:
//!
//! - No two have the same place.
//! - Each door that was entered is on one of the first `b` diagonals, so there are at most `b(b+1)/2` of them.
//! - A walk reaches its place within `4b` steps, each a read or a write.
//!
//! From `tests_model/src/grid_tests.rt`:
//!
//! ```text
//! fn place_of_next(world: &mut GridWorld<Global>, id: u64) -> Option<u128> {
//!     let _ = world.begin(id);
//!     for _ in 0..64 {
//!         let _ = world.step(id);
//!     }
//!     world.place_of(id)
//! }
//! ..
//! world.doors_entered() == 16
//! ..
//! let world = GridWorld::new(rt.alloc(), 16);
//! ```
pub mod door;
pub mod walker;
