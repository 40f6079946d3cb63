// Erased by bindings/rust/erase from crates/model_pool/src/lib.rt, sha256 55d824813798b6a58a7b39af2ea7eaff759091c1a81839217c076f9a0b9a55d1.
//! A pool of numbers, taken and given back any number of times: long-lived renaming by test-and-set bits (Moir and
//! Anderson 1995).
//!
//! Each of the `k` numbers of a pool but the last has a bit. A competitor probes the bits from the first on, one bit a
//! call, until it finds one clear. While at most `k` compete, each gets a number. Of the others a competitor sees the
//! bit that it probes, and nothing else. A pool may get more numbers while some are held. The number that was the last
//! one then gets a bit, and `k` is the new size.
//!
//! What is proved, over every list of calls in any order:
//!
//! - Each reply is one that the object of `specs/PoolObject.antt` may give, which gives out any number that nobody
//!   holds.
//! - At most `k` compete. Numbers held are in `1..=k`, and no two competitors hold the same one.
//! - The probe numbered `max(1, k - 1)` of a competitor is never missed.
//! - Widening changes the size, and no competitor's number.
//! - Each error is returned if and only if it is due, and changes nothing.
//! - After `new` no call but `competitors` allocates.
//!
//! From `tests_model/src/pool_tests.rt`, for a pool of one number:
//!
//! ```text
//! let crowded = [pool.acquire(5), pool.acquire(6)];
//! let entered = [pool.widen(2), pool.enter(6)];
//! let probed = pool.probe(6);
//! let given = [pool.leave(5), pool.acquire(7), pool.number_of(6)];
//! let holders = [pool.holder_of(1), pool.holder_of(2)];
//! crowded == [Ok(1), Err(Refusal::Crowded)]
//!     && entered == [Ok(()), Ok(())]
//!     && probed == Ok(Probe::Got(2))
//!     && given == [Ok(1), Ok(1), Ok(2)]
//!     && holders == [Some(7), Some(6)]
//! ```

pub mod competitor;
mod entry;
pub mod pool;
pub mod probe;
mod roster;
pub mod slots;
pub mod stay;
pub mod stays;
