// Erased by bindings/rust/erase from crates/words_pool/src/lib.rt, sha256 1b023552cb104cc241d0ac906294e93b8cf5844a1378e99364ec5ad0f4e0ced4.
//! Small numbers that threads take and give back over shared atomic words, with no lock: long-lived renaming by
//! test-and-set (Moir and Anderson 1995).
//!
//! A number has a word, 64 bytes from the next: 1 while a thread holds the number, otherwise 0. A call walks from 1
//! upward and loads each word until it finds one 0. It then swaps 1 into that word, and has the number if the word was
//! 0 at the swap. If not, another call was faster, and the call goes on by swaps alone, as it does at the last number.
//! No call takes a lock, waits for another or repeats an access.
//!
//! # What is proved of each call
//!
//! - Two numbers that are held at the same time differ (`WordPool::meet`, `LinePool::meet`).
//! - `acquire` gets a number, and found each number below it held, in order. To get number `n` it makes at most `n + 1`
//!   accesses. Among `k` numbers it makes at most `k`, or `k + 1` if it lost a race. A pool of words returns `AllHeld`,
//!   within as many, if it found all held. `acquire_near` tries one number before, by one access more.
//! - `LinePool::acquire` always gets a number: there are as many tickets as numbers.
//! - In a line the number is at most the most calls that competed, held or sought, at one moment of the call
//!   (`law_of_the_line`). Not proved, and not so where hints are used: the same of a pool of words.
//! - `release` makes one access. `close` returns the words. Of a pool of words each is 1 if and only if a last call
//!   found its number held (`LastLook`). Of a line at most as many are 1 as tickets were dealt.
//!
//! Not proved: that a thread makes its next access. A number that is dropped never comes back.
//!
//! From `tests_model/src/word_pool_tests.rt`:
//!
//! ```text
//! for _ in 0..20_000 {
//!     let Ok(held) = pool.acquire_near(if near { hint } else { 1 }) else {
//!         clashes = clashes.saturating_add(u64::from(!near));
//!         continue;
//!     };
//!     hint = held.number();
//!     clashes = clashes.saturating_add(u64::from(is_clash(marks, hint)));
//!     pool.release(held);
//! }
//! ```
//!
//! From `tests_model/src/line_pool_tests.rt`:
//!
//! ```text
//! let held = line.acquire(ticket);
//! let number = held.number();
//! ..
//! ticket = line.release(held);
//! ..
//! let one = line.deal(tickets)?;
//! ..
//! let (line, mut tickets) = LinePool::new(alloc, numbers)?;
//! ```

pub mod held;
pub mod line_pool;
pub mod line_steps;
mod near;
pub mod pool_over;
pub mod pool_steps;
pub mod pool_view;
pub mod ticket;
pub mod word_pool;
