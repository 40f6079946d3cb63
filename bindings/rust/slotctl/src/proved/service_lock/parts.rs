// Erased by bindings/rust/erase from crates/service_lock/src/parts.rt, sha256 7bad3dd87cd639276a45529785400c3af3afe3e0b2b995791f7dd4d8178fe997.
//! What is under a lock, and what a caller owns.

use crate::kit::marker::Brand;
use crate::kit::sync::ledger::{Book as Count, Ledger, Share};
use crate::kit::Vec;
use crate::proved::model_asked::exchange::Exchange;
use crate::proved::service_hall::hall::Hall;
use crate::proved::service_lock::book::{Book, Front, Naming};
use crate::proved::service_lock::kept_log::KeptLog;

/// The most callers of a lock.
pub const MOST_CALLERS: u64 = 1_000_000;

/// The lock that a type names: its ledger of kept events, its book and its configuration. A call picks all three, by
/// `Brand`.
pub trait LockName: Sized + Ledger + Naming {}

impl LockName for Brand {}

/// A hall with the count of its events, and the shares of that count for callers that may still be opened.
///
/// For each event there is a mark, with which `close` compares the history. A mark's room is allocated with its event,
/// so that the end of a lock allocates nothing. The history is that of the lock's book, which only grows.
pub struct Locked<L: LockName> {
    pub(crate) hall: Hall,
    pub(crate) marks: Vec<bool>,
    pub(crate) count: Count<L>,
    pub(crate) rest: Share<L>,
    pub(crate) opened: u64,
    pub(crate) book: Book<L, Exchange>,
    pub(crate) front: Front<L, Exchange>,
}

/// One caller of a lock: its accepted events in order, and the history as the lock's last reply showed it.
///
/// Contracts see these two. Its share counts its events in the lock's ledger.
pub struct Clerk<L: LockName> {
    pub(crate) kept: KeptLog,
    pub(crate) next: usize,
    pub(crate) share: Share<L>,
    pub(crate) seen: Front<L, Exchange>,
}

/// One participant of a lock, with its accepted events.
pub struct Session<L: LockName> {
    pub(crate) _id: u64,
    pub(crate) clerk: Clerk<L>,
}
