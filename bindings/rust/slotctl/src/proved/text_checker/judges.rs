// Erased by bindings/rust/erase from crates/text_checker/src/judges.rt, sha256 2e4e926d9bd02c411dd4dc091b8ed1c15b74dd35ab3f41bd53b820103d7628e0.
//! The state of the objects that a checker of records keeps, in tables, and its answers to questions.
//!
//! `Names` is the state of the renaming object: the participants with places, names and proposals, and the moments, as
//! rows in a table (`Moments`). It returns the error that a call must return. It says whether a place, a number, a view
//! or a name is one that the object may give. `Stays` is the state of the pool and the slots, and `Firsts` has the
//! first moments in which proposals are alone. What is proved of each: its state is that of one object (`HoldsNames`,
//! `HoldsSlots`, `HoldsFirsts`), also after each call, and its answers are those of the object's rules.
//!
//! Nothing is read here, and no order of lines is known: `text_checker` judges them.
//!
//! From `text_checker/src/checker.rt`:
//!
//! ```text
//! stays: Stays::new(alloc, MOST_NUMBERS as u64, config.k)?,
//! names: Names::new(alloc, config.m, config.limit, lines)?,
//! ..
//! if !self.stays.is_free(number) {
//!     return Err(Fault::Unlawful(Reason::Pool));
//! }
//! self.stays.gain(id, number);
//! Ok(())
//! ```
pub mod firsts;
pub mod moments;
pub mod names;
pub mod people;
pub mod standing;
pub mod stays;
