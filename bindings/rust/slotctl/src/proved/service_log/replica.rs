// Erased by bindings/rust/erase from crates/service_log/src/replica.rt, sha256 b44f23f07cd0760372241b9c7d77476d2b42a66e731e0a3a33bfc6763d2dd04d.
//! A machine that follows a log.

use crate::kit::alloc::Global;
use crate::kit::Vec;
use crate::proved::service_log::machine::{ApplyFault, Machine};
use crate::proved::service_log::serve_fault::{Cause, ServeFault};
use crate::proved::service_log::store::{Append, Put, Store, MOST_PLACES};

/// The most bytes of a batch.
pub const MOST_BATCH: usize = 65_536;

/// The most steps for a batch.
pub const MOST_STEPS: u64 = 1_000_000;

/// What a step did.
#[derive(Clone, Copy, Debug, PartialEq, Eq)]
pub enum Step {
    /// The batch is in the log, the machine applied it, and its replies are returned.
    Answered,
    /// Another entry was at the place, and the machine applied it.
    Passed,
    /// The machine applied nothing. The place was taken when the replica offered the batch, or empty when it read.
    Nothing,
}

/// A machine that applies the entries of a log, each once, in their order (state machine replication: Schneider 1990).
///
/// Contracts see four things of it:
///
/// - the machine;
/// - the number of entries that it applied;
/// - whether it is *poisoned*: an allocation failed while it applied an entry, and it never answers again;
/// - whether it is *behind*: it must read the next place before it writes there.
pub struct Replica<M: Machine> {
    _alloc: Global,
    machine: M,
    entry: Vec<u8>,
    place: u64,
    poisoned: bool,
    behind: bool,
}

impl<M: Machine> Replica<M> {
    /// Makes a replica of a machine that has applied no entry of the log.
    pub fn new(alloc: Global, machine: M) -> Replica<M> {
        Replica {
            _alloc: alloc,
            machine,
            entry: Vec::new(alloc),
            place: 0,
            poisoned: false,
            behind: false,
        }
    }

    /// Makes a replica of a machine that is where the entries of a log before a place led it, so far as its maker knows.
    ///
    /// It has applied no entry from that place on. It reads this place before it writes there.
    pub fn at(alloc: Global, machine: M, place: u64) -> Replica<M> {
        Replica {
            _alloc: alloc,
            machine,
            entry: Vec::new(alloc),
            place,
            poisoned: false,
            behind: true,
        }
    }

    /// Returns the number of entries that it applied, which is its next place in the log.
    pub fn place(&self) -> u64 {
        self.place
    }

    /// Returns the machine.
    pub fn machine(&self) -> &M {
        &self.machine
    }

    // Reads the entry at the next place, and applies it.
    fn follow<S: Store>(
        &mut self,
        store: &mut S,
        batch: &[u8],
        replies: &mut M::Replies,
    ) -> Result<Step, Cause> {
        match store.get(self.place, &mut self.entry) {
            Ok(true) => {}
            Ok(false) => {
                self.behind = false;
                return Ok(Step::Nothing);
            }
            Err(fault) => return Err(Cause::Store(fault)),
        }
        if let Err(fault) = self.machine.apply(&self.entry, replies) {
            self.poisoned = true;
            return Err(Cause::of_apply(fault));
        }
        self.place += 1;
        if self.entry.as_slice() == batch {
            Ok(Step::Answered)
        } else {
            Ok(Step::Passed)
        }
    }

    // Offers a batch for the next place, and applies it if this call wrote it there.
    fn offer<S: Store>(
        &mut self,
        store: &mut S,
        batch: &[u8],
        replies: &mut M::Replies,
    ) -> Result<Step, Cause> {
        self.behind = true;
        match store.put(self.place, batch) {
            Ok(Put::Written) => {}
            Ok(Put::Taken) => return Ok(Step::Nothing),
            Err(fault) => return Err(Cause::Store(fault)),
        }
        if let Err(fault) = self.machine.apply(batch, replies) {
            self.poisoned = true;
            return Err(Cause::of_apply(fault));
        }
        self.place += 1;
        self.behind = false;
        Ok(Step::Answered)
    }

    // Applies the entry at the next place, and drops its replies. Returns false if the place is empty or past the end of
    // the log.
    fn pass<S: Store>(&mut self, store: &mut S, replies: &mut M::Replies) -> Result<bool, Cause> {
        if self.place >= MOST_PLACES {
            return Ok(false);
        }
        let step = self.follow(store, &[], replies);
        M::forget(replies);
        Ok(step? != Step::Nothing)
    }

    // Makes one step for a batch as `step` does, and leaves any replies.
    fn advance<S: Store>(
        &mut self,
        store: &mut S,
        batch: &[u8],
        replies: &mut M::Replies,
    ) -> Result<Step, Cause> {
        if self.poisoned {
            return Err(Cause::Poisoned);
        }
        if self.place >= MOST_PLACES {
            return Err(Cause::Full);
        }
        if self.behind {
            self.follow(store, batch, replies)
        } else {
            self.offer(store, batch, replies)
        }
    }

    /// Makes one step for a batch, which asks the store once. The replies are none unless the result is `Answered`.
    ///
    /// A replica that is behind reads the entry at its next place and applies it. Otherwise it offers the batch for
    /// that place.
    ///
    /// # Errors
    ///
    /// The first that applies is returned:
    ///
    /// - `Poisoned`: the replica was poisoned before. Nothing has changed.
    /// - `Full`: all 10^16 places of the log are used. Nothing has changed.
    /// - `Store`: the store failed. The replica is now behind.
    /// - `Memory`: an allocation failed while it applied an entry. The replica is now poisoned.
    /// - `Damaged`: an entry of the log is damaged. The replica is now poisoned.
    pub fn step<S: Store>(
        &mut self,
        store: &mut S,
        batch: &[u8],
        replies: &mut M::Replies,
    ) -> Result<Step, Cause> {
        let result = self.advance(store, batch, replies);
        if result != Ok(Step::Answered) {
            M::forget(replies);
        }
        result
    }

    // Applies the entries at the places before `at`, and drops their replies. `Busy` is a store that lacks a place which it
    // said was taken.
    fn reach<S: Store>(
        &mut self,
        store: &mut S,
        at: u64,
        replies: &mut M::Replies,
    ) -> Result<(), Cause> {
        let missing = at - self.place;
        let passed = self.catch_up(store, missing, replies);
        self.behind = true;
        passed?;
        if self.place < at {
            return Err(Cause::Busy);
        }
        Ok(())
    }

    // Applies a batch that this replica wrote at its place.
    fn apply_own(&mut self, own: &[u8], replies: &mut M::Replies) -> Result<(), ApplyFault> {
        if let Err(fault) = self.machine.apply(own, replies) {
            self.poisoned = true;
            return Err(fault);
        }
        self.place += 1;
        self.behind = false;
        Ok(())
    }

    // Appends a batch to the log, applies the entries before it and then the batch, if this call wrote it.
    fn write<S: Store>(
        &mut self,
        store: &mut S,
        batch: &[u8],
        replies: &mut M::Replies,
    ) -> Result<Step, Cause> {
        self.behind = true;
        let at = match store.append(self.place, batch) {
            Ok(Append::At(at)) => at,
            Ok(Append::Nowhere) => return Ok(Step::Nothing),
            Err(fault) => return Err(Cause::Store(fault)),
        };
        self.reach(store, at, replies)?;
        if let Err(fault) = self.apply_own(batch, replies) {
            return Err(Cause::of_apply(fault));
        }
        Ok(Step::Answered)
    }

    // Makes one step for a batch that may come to stand behind other entries, and leaves any replies.
    fn progress<S: Store>(
        &mut self,
        store: &mut S,
        batch: &[u8],
        replies: &mut M::Replies,
    ) -> Result<Step, Cause> {
        if self.place >= MOST_PLACES {
            return Err(Cause::Full);
        }
        let behind = self.behind;
        if behind {
            self.follow(store, batch, replies)
        } else {
            self.write(store, batch, replies)
        }
    }

    // Makes one step for a batch as `progress` does. The replies are none unless the result is `Answered`.
    fn stride<S: Store>(
        &mut self,
        store: &mut S,
        batch: &[u8],
        replies: &mut M::Replies,
    ) -> Result<Step, Cause> {
        let result = self.progress(store, batch, replies);
        let is_answered = result == Ok(Step::Answered);
        if !is_answered {
            M::forget(replies);
        }
        result
    }

    /// Serves a batch: appends it to the log, applies all entries before it and then the batch, and returns its replies.
    ///
    /// This call writes the batch at most once, also if it fails. After an error the replies are none.
    ///
    /// # Errors
    ///
    /// The first that applies is returned:
    ///
    /// - `TooLong`: the batch has more than 65,536 bytes. Nothing has changed.
    /// - `Unknown(Poisoned)`: the replica was poisoned before. Nothing has changed.
    /// - `Unknown` with a cause of `step`, at the step that failed. The batch may be in the log, or get there later.
    /// - `Unknown(Busy)`: 1,000,000 steps were made. The replica applied at least 333,333 entries of others, or the
    ///   store contradicts itself.
    pub fn serve<S: Store>(
        &mut self,
        store: &mut S,
        batch: &[u8],
        replies: &mut M::Replies,
    ) -> Result<(), ServeFault> {
        if batch.len() > MOST_BATCH {
            M::forget(replies);
            return Err(ServeFault::TooLong);
        }
        if self.poisoned {
            M::forget(replies);
            return Err(ServeFault::Unknown(Cause::Poisoned));
        }
        for _ in 0..MOST_STEPS {
            match self.stride(store, batch, replies) {
                Ok(Step::Answered) => return Ok(()),
                Ok(Step::Passed | Step::Nothing) => {}
                Err(cause) => return Err(ServeFault::Unknown(cause)),
            }
        }
        M::forget(replies);
        Err(ServeFault::Unknown(Cause::Busy))
    }

    /// Applies the next entries of the log, at most `most`, and returns how many they were. It drops their replies.
    ///
    /// It applies fewer than `most` only if the store reports the next place as empty, or at the end of the log.
    ///
    /// # Errors
    ///
    /// The first that applies is returned. Entries that were applied before it stay applied.
    ///
    /// - `Poisoned`: the replica was poisoned before. Nothing of it has changed.
    /// - `Store`: the store failed.
    /// - `Memory`: an allocation failed while it applied an entry. The replica is now poisoned.
    /// - `Damaged`: an entry of the log is damaged. The replica is now poisoned.
    pub fn catch_up<S: Store>(
        &mut self,
        store: &mut S,
        most: u64,
        replies: &mut M::Replies,
    ) -> Result<u64, Cause> {
        M::forget(replies);
        if self.poisoned {
            return Err(Cause::Poisoned);
        }
        for passed in 0..most {
            let stood = self.pass(store, replies)?;
            if !stood {
                return Ok(passed);
            }
        }
        Ok(most)
    }
}
