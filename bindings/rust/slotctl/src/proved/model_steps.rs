// Erased by bindings/rust/erase from crates/model_steps/src/lib.rt, sha256 cd54b9bd94c2f2d81f3a1efa8d7c26a7cb654294a3d7fbc0b29b8ead2d29976d.
//! Registers that are reached by one access a step, programs that take such steps, and worlds of them.
//!
//! A *program* names its next access as a function of its state, and takes the answer. A *world* is a memory with the
//! participants on it. A step of a participant is one access to at most one register, and changes no other participant.
//! The caller chooses the schedule, which is the order of the calls. A participant that crashes is one that no later
//! call names.
//!
//! From `tests_model/src/memory_tests.rt`:
//!
//! ```text
//! let memory = Memory::new(alloc, 3, 2, 2)?;
//! Ok(World::new(alloc, memory, 2)?)
//! ..
//! let asked = [world.begin(10, write), world.begin(20, read)];
//! let reported = [world.step(10), world.step(20)];
//! ..
//! asked == [Ok(()), Ok(())]
//!     && reported
//!         == [
//!             Ok(Note::Ended(Answer::Done)),
//!             Ok(Note::Ended(Answer::Value(7))),
//!         ]
//! ```

pub mod access;
pub mod hints;
pub mod memory;
pub mod note;
pub mod participant;
pub mod place;
pub mod program;
pub mod record;
pub mod refusal;
pub mod shortcut;
pub mod view;
pub mod world;
