// Erased by bindings/rust/erase from crates/service_host/src/persisters.rt, sha256 b3ce6f41fe3ce076eda81d7151f9f064a5f0f43c98bfa9a7370c275b316a3f81.
//! What is kept of the turns of a loop over a hall.

use crate::kit::alloc::{Allocator, Global};
use crate::proved::service_follow::tallying::{room_of, tally_of};
use crate::proved::service_hall::compactor::Compactor;
use crate::proved::service_hall::hall::Hall;
use crate::proved::service_host::reading::Reading;
use crate::proved::service_journal::disk::Disk;
use crate::proved::service_journal::journal::{Journal, JournalFault};
use crate::proved::service_journal::laws::law_of_crashes;
use crate::proved::service_journal::write_ahead::WriteAhead;
use crate::proved::service_loop::persist::{Persist, Prefetch};
use crate::proved::service_watch::numbers::Tally;
use crate::proved::text_lines::held::query::HeldQuery;
use crate::proved::text_lines::held::telling::put_held;
use crate::proved::text_lines::replies::Replies;

/// Where so many bytes of lines wait they are kept before the next connection has its turn: the lines of one more turn, 64 KiB of the
/// shortest commands, have room behind them, since a write-ahead hall refuses memory where a megabyte waits.
const FULL_BYTES: usize = 262_144;

/// What is said where the record of a shorter history could not be written.
const NOT_COMPACTED: &str =
    "the journal is not compacted: its new file could not be written beside it; it goes on, and tries again later";

/// Keeps nothing: the history of a hall ends with the program. It is compacted whenever it has grown long.
pub struct Unrecorded {
    /// Where the memory of a hall that is compacted comes from.
    pub alloc: Global,
    /// When that is due.
    pub compactor: Compactor,
    /// How often it was compacted.
    pub compactions: u64,
}

impl Unrecorded {
    // Compacts the hall, if that makes the history shorter. It stands apart from the question whether that is due: its room for a hall is cleared
    // whenever it is called.
    #[inline(never)]
    fn compact(&mut self, hall: &mut Hall) {
        if let Some(shorter) = self.compactor.compacted(self.alloc, hall) {
            *hall = shorter;
            self.compactions = self.compactions.saturating_add(1);
        }
    }
}

impl Persist<Reading<Hall>> for Unrecorded {
    type Fault = JournalFault;

    fn put_held<B: Allocator>(
        &self,
        reading: &Reading<Hall>,
        query: HeldQuery,
        out: &mut Replies<B>,
    ) {
        put_held(reading.service.slots(), query, out);
    }

    fn room(&self, reading: &Reading<Hall>) -> u64 {
        room_of(&reading.service)
    }

    fn is_full(&self, _reading: &Reading<Hall>) -> bool {
        false
    }

    fn persist(&mut self, reading: &mut Reading<Hall>) -> Result<(), JournalFault> {
        let hall = &mut reading.service;
        if self.compactor.is_due(hall) {
            self.compact(hall);
        }
        Ok(())
    }

    fn most_prefetched(&self) -> Option<usize> {
        None
    }

    fn prefetch(
        &mut self,
        _reading: &mut Reading<Hall>,
        _lines: &[u8],
    ) -> Result<Prefetch, JournalFault> {
        Ok(Prefetch::Known)
    }

    fn tick(&mut self, _reading: &mut Reading<Hall>) -> Result<(), JournalFault> {
        Ok(())
    }

    // No other server has the hall: its stays end by its own events.
    fn shares_stays(&self) -> bool {
        false
    }

    fn end_stays(
        &mut self,
        _reading: &mut Reading<Hall>,
        _due: &[u64],
    ) -> Result<(), JournalFault> {
        Ok(())
    }

    fn has_stay(&self, reading: &Reading<Hall>, identity: u64) -> bool {
        reading.service.slots().pool().stay_of(identity).is_some()
    }

    fn lease(&self) -> u64 {
        0
    }

    fn may_answer_stays(&self, _lease: u64) -> bool {
        true
    }

    fn trouble(&self) -> Option<&'static str> {
        None
    }

    // Nobody counts it here: a metric tells how much room is left.
    fn lasting_tenths(&self) -> u8 {
        0
    }

    fn tally(&self, reading: &Reading<Hall>) -> Tally {
        Tally {
            compactions: Some(self.compactions),
            ..tally_of(self.alloc, &reading.service)
        }
    }
}

/// Keeps the lines of a write-ahead hall in its journal, and compacts both whenever the history has grown long.
pub struct Recorded<D: Disk> {
    /// The journal.
    pub journal: Journal<D>,
    /// Where the memory of a hall that is compacted comes from.
    pub alloc: Global,
    /// When that is due.
    pub compactor: Compactor,
}

impl<D: Disk> Recorded<D> {
    /// Compacts the history where it is long, as it may be at the start.
    ///
    /// # Errors
    ///
    /// Those of `Journal::compact_when_due`.
    pub fn compact_when_due(&mut self, write_ahead: &mut WriteAhead) -> Result<(), JournalFault> {
        self.journal
            .compact_when_due(self.alloc, &mut self.compactor, write_ahead)
    }

    /// Commits all that is pending, and compacts the history behind that where it is long.
    ///
    /// # Errors
    ///
    /// Those of `Journal::commit` and of `compact_when_due`.
    pub fn commit_all(&mut self, write_ahead: &mut WriteAhead) -> Result<(), JournalFault> {
        law_of_crashes();
        if !write_ahead.has_waiting() {
            return Ok(());
        }
        self.journal.commit(write_ahead)?;
        self.compact_when_due(write_ahead)
    }
}

impl<D: Disk> Persist<Reading<WriteAhead>> for Recorded<D> {
    type Fault = JournalFault;

    fn put_held<B: Allocator>(
        &self,
        reading: &Reading<WriteAhead>,
        query: HeldQuery,
        out: &mut Replies<B>,
    ) {
        put_held(reading.service.hall().slots(), query, out);
    }

    fn room(&self, reading: &Reading<WriteAhead>) -> u64 {
        room_of(reading.service.hall())
    }

    fn is_full(&self, reading: &Reading<WriteAhead>) -> bool {
        FULL_BYTES < reading.service.waiting().len()
    }

    fn persist(&mut self, reading: &mut Reading<WriteAhead>) -> Result<(), JournalFault> {
        self.commit_all(&mut reading.service)
    }

    fn most_prefetched(&self) -> Option<usize> {
        None
    }

    fn prefetch(
        &mut self,
        _reading: &mut Reading<WriteAhead>,
        _lines: &[u8],
    ) -> Result<Prefetch, JournalFault> {
        Ok(Prefetch::Known)
    }

    // A file that was deleted, moved or cut short is noticed though nothing is written.
    fn tick(&mut self, _reading: &mut Reading<WriteAhead>) -> Result<(), JournalFault> {
        self.journal.look()
    }

    // No other server has the journal: its stays end by its own events.
    fn shares_stays(&self) -> bool {
        false
    }

    fn end_stays(
        &mut self,
        _reading: &mut Reading<WriteAhead>,
        _due: &[u64],
    ) -> Result<(), JournalFault> {
        Ok(())
    }

    fn has_stay(&self, reading: &Reading<WriteAhead>, identity: u64) -> bool {
        reading
            .service
            .hall()
            .slots()
            .pool()
            .stay_of(identity)
            .is_some()
    }

    fn lease(&self) -> u64 {
        0
    }

    fn may_answer_stays(&self, _lease: u64) -> bool {
        true
    }

    fn trouble(&self) -> Option<&'static str> {
        if self.compactor.is_put_off() {
            Some(NOT_COMPACTED)
        } else {
            None
        }
    }

    // Nobody counts it here: a metric tells how much room is left.
    fn lasting_tenths(&self) -> u8 {
        0
    }

    fn tally(&self, reading: &Reading<WriteAhead>) -> Tally {
        Tally {
            compactions: self.journal.disk().replacings(),
            journal_bytes: Some(self.journal.disk().size()),
            syncs: self.journal.disk().sync_times(),
            ..tally_of(self.alloc, reading.service.hall())
        }
    }
}
