// Erased by bindings/rust/erase from crates/words_machine/src/grid.rt, sha256 7e9cb15a60c6ea05decf783f49ef66493d5c85e1098a0a6f1ac2bb3faad5e020.
//! A triangular grid of splitters over shared atomic words (Moir and Anderson 1995): each thread that enters gets a
//! place of its own, by reads and writes alone.
//!
//! A walk begins at the door in the corner and goes right or down as each splitter says, until it stops. The door there
//! is its place. Doors are numbered diagonal by diagonal, from 0. No call takes a lock, waits for another or starts a
//! thread: the holder of a seat makes the accesses of its walk. The walk is the program of `model_splitter::grid`, which a
//! [`crate::WordMachine`] takes access by access. So the law of that crate's machine holds of the threads.
//!
//! Where `b` walks had begun when this one ended, itself among them:
//!
//! - The place is among the first `b(b + 1)/2`.
//! - The walk made two accesses for each door that it left to the right, and four for each other door. So it made at
//!   most `4b`, and a walk that runs solo has place 0 by four accesses.
//! - No more walks have begun than seats were dealt, which the dealer shows (`tally`).
//! - Two seats that are compared have two places (`meet`). A claim shows a place, and two claims of one place are of
//!   one seat.
//!
//! Not proved: anything of seats that are never compared, and that a thread makes its next access.
//!
//! From `tests_model/src/word_grid_tests.rt`:
//!
//! ```text
//! let fresh = grid.deal(dealer)?;
//! let mut entered = grid.enter(fresh);
//! grid.tally(dealer, &mut entered);
//! let door = entered.door();
//! let depth = u64::from(door.depth);
//! Some((depth, door.column, entered.place(), entered.number()))
//! ..
//! let (grid, dealer) = WordGrid::new(alloc, most)?;
//! ```
pub mod seats;
pub mod word_grid;
