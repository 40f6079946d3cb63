// Erased by bindings/rust/erase from crates/service_hall/src/lib.rt, sha256 b236bcb2383c90063589b3327cc05496675cdb44a9e8f4ef5498f53df1dab3d5.
//! One desk with the history of its events, and a shorter history for the same desk.
//!
//! A *hall* is a desk with the list of its accepted events and their replies. What is proved:
//!
//! - The history is a run of the renaming object, the pool and the slots, each fresh at first (`law_of_hall`). The desk
//!   is its replay.
//! - An accepted event adds itself with its reply to the history, and nothing else. A refused event changes nothing
//!   (`Hall::apply`, `law_of_events`).
//!
//! A history has at most 1,000,000 events. Each takes 40 bytes, and views are stored apart.
//!
//! As a service a hall answers lines (`law_of_serving`). One caller owns it: `service_lock` puts a lock around one, and
//! a log or a journal may store its events.
//!
//! A `get` changes nothing of a desk. `Hall::serve_short` answers it as the desk does and stores it nowhere, if reads
//! are plain (`Reads`). It refuses `widen`, `begin` and `step` if the rules bar them (`Rules`). What is proved of such
//! turns (`law_of_reads`): without what is barred they are a transcript of the config with all reads in it, and without
//! the reads too they are the turns of a hall that stores reads.
//!
//! If tokens are given (`Rules`), a client's `put` puts one more than the slot has, and is answered with that token. No slot
//! ever has less than before, so each token is above all that its number had (`law_of_raises`).
//!
//! A reply that shows a view takes a kilobyte. `Hall::apply_short` returns a reply of few bytes instead, and stores the
//! view in a buffer of the caller.
//!
//! A history only grows, and most of its events are soon of no use. An identity that enters the pool and leaves it
//! again adds hundreds of events, and the pool is as before. `compacted` makes a new hall. It has the events of
//! renaming as they are, and a few events that lead the pool and the slots to their present state. What is proved
//! (`IsCompacted`):
//!
//! - The new hall satisfies the specification of a hall, and its config and desk are the same.
//! - The events of renaming are in its history with their replies, in their order. The history is shorter.
//!
//! So its reply to any later event is the one that the old hall would have returned, failed allocations and a full
//! history aside. Only tested, on drawn states: `compacted` returns a hall if the history has many more events of the
//! pool than it needs. `Compactor` says when a compaction is due.
//!
//! From `tests_service/src/lock_tests.rt`:
//!
//! ```text
//! Hall::new(alloc, config).expect(rt, "room for a hall")
//! ..
//! hall.apply(Event::Enter(5));
//! hall.apply(Event::Probe(5));
//! for value in 2..1_000_000 {
//!     hall.apply(Event::Put(5, value));
//! }
//! hall.len() == 1_000_000
//! ```
//!
//! From `tests_service/src/drawn_tests.rt`, where a history is made shorter:
//!
//! ```text
//! match compacted(alloc, old) {
//!     Some(mut new) => new.len() < old.len() && are_alike(old, &mut new, words, k),
//!     None => false,
//! }
//! ..
//! Compactor::new().is_due(&old),
//! ```

pub mod compacting;
pub mod compactor;
mod entry;
pub mod hall;
mod hall_service;
mod helpers;
pub mod laws;
pub mod log;
mod plan;
pub mod raising;
pub mod reads;
mod rebuilding;
pub mod rules;
pub mod same;
mod slots_copy;
mod stuck;
mod wide_plan;
