// Erased by bindings/rust/erase from crates/model_pool/src/slots.rt, sha256 c9917282ec6aba5f5b51f4369aa5dc30361cd2da51bef47e6d81ac97fb263d6a.
//! A slot for each number of a pool, used by the holder of the number.
//!
//! A competitor of a pool takes a number, works with the slot of that number alone, and gives the number back. The slot
//! keeps its value for the next holder. So a thread has a slot of its own while it needs one, any number of times,
//! among as many slots as compete at once. If the pool gets more numbers, there are as many more slots.
//!
//! What is proved, over every list of calls in any order:
//!
//! - The pool's part of the list keeps the pool's law (`model_pool`).
//! - `put` by the holder of a number changes the slot of that number, and nothing else.
//! - `get` returns the value in the slot of the number held.
//! - `widen` fills the new slots, and changes no other.
//! - Each error is returned if and only if it is due, and changes nothing.
//! - If each holder of a number puts one more than its slot has, these tokens rise (`law_of_tokens`).
//! - After `new` no call allocates.
//!
//! From `text_worlds/src/desk/over.rt`:
//!
//! ```text
//! let values = Vec::from_elem(alloc.clone()?, 0u64, size as usize)?;
//! match Pool::new(alloc.clone()?, most, size) {
//!     Ok(pool) => match Slots::new(pool, values) {
//! ..
//! Event::Enter(id) => Reply::of_done(self.slots.enter(id)),
//! Event::Probe(id) => of_probe(self.slots.probe(id)),
//! Event::Seek(id) => of_seek(self.slots.seek(id)),
//! Event::Leave(id) => Reply::of_leave(self.slots.leave(id)),
//! Event::Put(id, value) => Reply::of_done(self.slots.put(id, value)),
//! Event::Get(id) => Reply::of_value(self.slots.get(id).copied()),
//! Event::Widen(size) => Reply::of_done(self.slots.widen(size, 0)),
//! ```
pub mod slots;
