// Erased by bindings/rust/erase from crates/model_recursion/src/lib.rt, sha256 607e1d9a5a600d743fa130c348e9352bdba8bf1dbd4e04d537f7431b3720ce58.
//! Names by recursion over levels (Borowsky and Gafni 1993; Gafni and Rajsbaum 2010), by reads and writes of single words.
//!
//! There are `m` seats, from 1 to 64. An *instance* is a level `x`, from `m` down to 1, a first name and a *direction*: from an
//! odd first name names go up, and from an even one down. It has one word for each seat, 0 until the seat writes its identity
//! there. A seat begins at the instance of level `m` that goes up from 1. At each instance it does this:
//!
//! 1. It writes its identity into its own word.
//! 2. It reads the words of the seats, one after another, until those that are left do not matter: it has met `x` that are not
//!    0, or more than `m - x` that are.
//! 3. If it has met fewer than `x`, it goes on to level `x - 1`, at the instance with the same first name.
//! 4. If it has met `x`, it is *full*. Let `last` be `2x - 2` names from the first. If its identity is the greatest that it met,
//!    its name is `last`. If not, it *turns*: it goes on to level `x - 1`, at the instance that begins one before `last` and
//!    goes the other way.
//!
//! [`Namer`] is the program of one seat. [`law_of_naming`] is the law of the machine of all seats: after any list of calls,
//! names are distinct, each is from 1 to `2b - 1` where `b` have begun, and a seat that has made `m(m + 1)` accesses has its
//! name. A refused call changes nothing, and a call is refused if and only if that is due. [`law_of_levels`] is the argument
//! with no memory: at most `x` come to an instance of level `x`, and two instances of a level share no name.
//!
//! Identities are numbers of 64 bits that the callers choose, and not 0. They need not differ: of two seats with one identity
//! the one with the greater number counts as greater. Beyond that a seat's number says only which word is its own.
//!
//! From `tests_model/src/names/turns_tests.rt`, where a program runs over simulated words:
//!
//! ```text
//! let got = answered(words, &lane.program);
//! let note = lane.program.resume(got);
//! ..
//! program: Namer::new(count, number.saturating_add(1), identity),
//! ```

pub mod namer;
