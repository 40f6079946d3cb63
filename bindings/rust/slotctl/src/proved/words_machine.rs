// Erased by bindings/rust/erase from crates/words_machine/src/lib.rt, sha256 7ebb03437baf81967ac620017f090b86c15afd2f7443b6bc184ac993e8a81b8e.
//! Programs of single accesses to words, taken by threads over atomic words that they share, with no lock.
//!
//! A [`WordProgram`] is a step program each of whose registers is a word, with the machine on which it is proved. Each step
//! of the machine is one access of one participant's program. A [`WordMachine`] runs the same program by threads: the holder
//! of a seat makes the accesses of its participant, one after another. No call takes a lock, waits for another or starts a
//! thread.
//!
//! The law: for each participant that has ended, some list of calls of the machine leads to a state in which it stands at the
//! program that `enter` returned, and got the outcome, by just as many steps as it made accesses; as many had begun as
//! had entered. So each law that holds after every list of calls of the machine holds of threads. Two that meet have one list
//! for both ends. The dealer shows that no more had entered than seats were dealt. A claim shows an outcome to each that was
//! reported of it. What is not promised: anything of seats that never meet, and that a thread gets on with its accesses.
//!
//! Three programs are here: a visit to a splitter ([`visits`]), a walk through a grid of splitters ([`walks`]), and the
//! program of a seat that is named by recursion over levels ([`names`]).
//!
//! From `tests_model/src/word_machine_tests.rt`, where threads visit a splitter:
//!
//! ```text
//! let identity = splitter.own_number(&seat);
//! let entered = splitter.enter(seat, identity);
//! *entered.outcome()
//! ..
//! if let Some(seat) = splitter.deal(&mut dealer) {
//!     guests.push(Guest { splitter, seat })?;
//! }
//! ..
//! let (splitter, dealer) = Splitter::new(alloc, count)?;
//! ```

pub mod grid;
pub mod names;
pub mod parts;
pub mod program;
pub mod run_steps;
pub mod seat_view;
pub mod seats;
pub mod visits;
pub mod walks;
pub mod word_access;
pub mod word_machine;
mod words;
