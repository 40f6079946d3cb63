// Erased by bindings/rust/erase from crates/service_lock/src/lib.rt, sha256 5e0d6240cfb9ddee5a2768a3174ed55a237d706d10b9e59b3b4ed6549a5987ba.
//! A hall behind a mutex that threads share, and the names of its sessions on a board.
//!
//! A `HallLock` is a hall under a lock. Its callers are *sessions*, each of one participant, and *clerks*, who apply
//! any event. A call takes the lock once and is one event. Its caller keeps an accepted event with its reply and its
//! place in the history. What is proved (`IsTaken`):
//!
//! - The reply is that of a hall of the lock's configuration, with a lawful history that extends what the caller had
//!   seen before.
//! - All that the caller has kept is in that history at its place (`HallLock::{apply, act, step, session}` and their
//!   fellows).
//! - `rename` makes at most its turns, at places that rise, and exactly its turns if they are used up. With
//!   `turns_among` turns it ends in a name or an error, whatever others do.
//! - `close` returns a history of that configuration. Each place of it was kept by exactly one caller, with the event
//!   and the reply there. Otherwise `close` returns all that it was given. So the accepted replies of all callers are
//!   one run, each once, in each caller's order.
//!
//! Not proved: that a lock is got, so that a call returns, and an order between threads that never meet.
//!
//! A reply may show a view, which takes a kilobyte. `HallLock::{apply_short, act_short}` return a few bytes and keep
//! the view beside.
//!
//! Under the lock is a `Locked`: a hall with the book of its history and a ledger that counts what its callers keep.
//!
//! A `Book` is an append-only history that threads share, of which each knows a prefix that stays one. The history is
//! ghost state: threads share a word, its length. A *front* is a prefix of the history that was seen. A call appends an
//! entry if its front is the whole history, or finds that the history is longer. Of two fronts the shorter is a prefix
//! of the longer. So the value under the lock, which a thread finds as another thread left it, can say that this very
//! history leads to it. The type names the book: a call picks it, by `Brand`.
//!
//! From `tests_service/src/lock_tests.rt`, in functions over `L: LockName` that are called with `Brand`:
//!
//! ```text
//! let mut session = lock.session(rt, alloc, 7).expect(rt, "room for a session");
//! ..
//! let is_quiet = lock.step(rt, &mut session) == Reply::Quiet;
//! ..
//! lock.rename(rt, &mut session, 1),
//! ..
//! sessions.push(session).ok().expect(rt, "room for one more");
//! let closed = lock.close(sessions, clerks).ok();
//! closed.expect(rt, "each caller is handed in").hall.len()
//! ```
//!
//! From `service_lock/src/telling.rt`, of a book alone:
//!
//! ```text
//! if front.add::<Reported<'_>, Telling>(book, reported) {
//!     *seen = front.again();
//!     return;
//! }
//! ```

pub mod book;
pub mod closing;
pub mod kept;
pub mod kept_log;
pub mod lock;
pub mod locked;
pub mod matching;
pub mod parts;
pub mod rule;
pub mod server;
pub mod serving_clerk;
mod telling;
