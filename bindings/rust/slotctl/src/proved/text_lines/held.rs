// Erased by bindings/rust/erase from crates/text_lines/src/held.rt, sha256 387978afdbfd3479425989a2d4ef9e153563a0b587c8c244007e5a6dbba83387.
//! The lines that ask for the holders of numbers, and the answers to them.
//!
//! `held` asks for each number that is held, with its holder and the value of its slot. Where a pool has more than 64
//! numbers it is answered in pages: `held from N` asks for the page that begins with a number. `held ID` asks for the number
//! of one identity. These are no commands of the language (`text_lines`), which does not know their word. A server
//! that answers them checks for them first (`held_query`). The answer is that of a pool with its slots (`put_held`),
//! and changes nothing.
//!
//! From `service_host/src/persisters.rt`:
//!
//! ```text
//! put_held(reading.service.slots(), query, out);
//! ```
pub mod query;
pub mod telling;
