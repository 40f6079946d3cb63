// Erased by bindings/rust/erase from crates/text_worlds/src/desk.rt, sha256 87e854ef5c95e41b78ffd494a9fb5dd4bb2e546693bf71f7b266ae5ee1d73bf7.
//! One renaming world and one pool with slots, behind events.
//!
//! An *event* is an action of one participant, with at most one access to one register; its reply is returned at once.
//! A desk takes the events of renaming (`Begin`, `Step`), of the pool (`Enter`, `Probe`, `Leave`) and of the slots
//! (`Put`, `Get`), in any order. One event is no participant's: the pool gets more numbers (`Widen`). Names are given
//! over the places of a grid (the world `Rename`) or of a tree (`Tree`), as the configuration says.
//!
//! What is proved, over every list of events:
//!
//! - Each reply is the one that the renaming world, the pool or the slots give (`Desk::apply`). There is one reply and
//!   one next desk. Over a tree a step that makes a node may also fail to allocate, and then nothing has changed.
//! - The exchanges, events with their replies, are a *run*: the fresh renaming object, pool and slots can answer it in
//!   order, within their counts of steps (`law_of_desk`: `law`).
//! - So nobody was given two names, and no two were given one (`law_of_names`). Each name is from 1 to 2b - 1, where b
//!   have begun.
//! - The identity that `Desk::owner` returns was given the name (`reported`).
//! - `Desk::refusal` returns the refusal of an event beforehand.
//!
//! A reply may show a view, which takes a kilobyte. `Desk::apply_short` returns a few bytes and keeps the view beside
//! the reply, by the same rules. Observers may ask a desk for a participant's next access (`coming`), its place and its
//! name, the value of a register (`held`), and the slots. This makes no access and changes nothing.
//!
//! From `tool_work/src/drawn/runs.rt`:
//!
//! ```text
//! let reply = desk.apply_short(event, view);
//! if reply == Reply::Refused(Refusal::NoMemory) {
//!     return Err(Fault::Memory);
//! }
//! ..
//! let Ok(mut desk) = Desk::new(alloc, config) else {
//!     return Err(Fault::Memory);
//! };
//! ```
pub mod coming;
pub mod desk;
pub mod held;
mod outcomes;
mod over;
