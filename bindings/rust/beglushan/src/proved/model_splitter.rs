// Erased by bindings/rust/erase from crates/model_splitter/src/lib.rt, sha256 6cd955c3e75d9343135d514b78c3d7a58823190b7695140804874cf16a8fd976.
//! The splitter of Moir and Anderson (1995).
//!
//! A splitter has two registers: X, which holds an identity, and Y, a bit. A visitor makes at most four accesses and
//! then stops, goes right or goes down. Of all visitors that have entered, at most one stops, not all go right, and not
//! all go down. So a visitor that enters alone stops, and a crowd is split. Reads and writes suffice: no test-and-set,
//! and no visitor waits for another.
//!
//! A visit is a program (`Visitor`) that other structures run on registers of theirs. From
//! `model_splitter/src/grid/walker.rt`:
//!
//! ```text
//! match self.visitor.resume(got) {
//!     Note::Ended(Way::Stop) => Note::Ended(Place::from(self.door.number())),
//!     Note::Ended(Way::Right) => {
//!         *self = Walker::new(self.visitor.identity, self.door.right());
//!         Note::Quiet
//!     }
//! ```
//!
//! `SplitterWorld` is a world of visitors. From `text_worlds/src/splitter_world.rt`:
//!
//! ```text
//! Event::Begin(id) => Reply::of_done(self.begin(id)),
//! Event::Step(id) => visit_reply(self.step(id)),
//! ..
//! SplitterWorld::new(alloc, config.m as usize)
//! ```

pub mod grid;
pub mod stage;
pub mod visitor;
pub mod way;
