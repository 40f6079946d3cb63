// Erased by bindings/rust/erase from crates/words_machine/src/words.rt, sha256 c0ecdeaba6c76cb6ef21097da5955553359fecb796a8048d9b129bf14e74c52a.
//! The words. They are reached through this type alone, of which each access of a program is counted in the view of its seat.

use crate::kit::alloc::{AllocError, Allocator};
use crate::kit::atomic_table::{Seat, Table};
use crate::kit::Clone;
use crate::kit::Vec;
use crate::proved::model_steps::note::Note;
use crate::proved::words_machine::program::WordProgram;
use crate::proved::words_machine::run_steps::{DealRun, GetWord, PutWord, Running};
use crate::proved::words_machine::seat_view::SeatView;
use crate::proved::words_machine::word_access::WordAccess;

/// Words that programs share.
pub struct Words<P: WordProgram, A: Allocator> {
    most: u64,
    // It has no slots, so what a slot holds says nothing.
    table: Table<u8, SeatView<P, P::Output>, u64, Running<P>, A>,
}

impl<P: WordProgram, A: Allocator + Clone> Words<P, A> {
    /// Makes the words for so many seats, where no one has begun, and the seat that all others are dealt from.
    pub(crate) fn open(
        alloc: A,
        most: u64,
    ) -> Result<(Words<P, A>, Seat<u8, SeatView<P, P::Output>>), AllocError> {
        let words = Vec::from_elem(alloc.clone()?, 0u64, P::registers(most))?;
        let (table, rest) = Table::of_words(alloc, words.as_slice(), &most)?;
        Ok((Words { most, table }, rest))
    }
}

impl<P: WordProgram, A: Allocator> Words<P, A> {
    /// Returns how many seats there are.
    pub(crate) fn most(&self) -> u64 {
        self.most
    }

    /// Deals the seat of the least number that is not yet dealt out.
    pub(crate) fn deal(
        &self,
        rest: &mut Seat<u8, SeatView<P, P::Output>>,
        _number: u64,
    ) -> Seat<u8, SeatView<P, P::Output>> {
        self.table.shared.split_seat::<DealRun>(rest)
    }

    /// Loads a register, and gives the program the word. There are `most` seats.
    #[inline(always)]
    fn step_load(
        &self,
        most: u64,
        seat: &mut Seat<u8, SeatView<P, P::Output>>,
        _number: u64,
        _identity: u64,
        program: &mut P,
        register: P::Reg,
    ) -> Note<P::Output> {
        // Opens the words, so that the range of `most` is known.
        let _most = self.most;
        let at = P::place(most, register);
        let word = self.table.shared.load::<GetWord<P>>(seat, at);
        program.take_word(word)
    }

    /// Stores a word into a register, and tells the program.
    #[inline(always)]
    fn step_store(
        &self,
        seat: &mut Seat<u8, SeatView<P, P::Output>>,
        _number: u64,
        _identity: u64,
        program: &mut P,
        register: P::Reg,
        word: u64,
    ) -> Note<P::Output> {
        let at = P::place(self.most, register);
        self.table.shared.store::<PutWord<P>>(seat, at, word);
        program.take_done()
    }

    /// Makes one access of a program, and gives the program the answer.
    #[inline(always)]
    pub(crate) fn step(
        &self,
        seat: &mut Seat<u8, SeatView<P, P::Output>>,
        number: u64,
        identity: u64,
        program: &mut P,
    ) -> Note<P::Output> {
        match program.access() {
            WordAccess::Load(r) => self.step_load(self.most, seat, number, identity, program, r),
            WordAccess::Store(r, word) => self.step_store(seat, number, identity, program, r, word),
            WordAccess::Nothing => Note::Quiet,
        }
    }
}

impl<P: WordProgram, A: Allocator> Words<P, A> {
    /// Makes the loads that a program makes next, one after another, until it ends or stores: with what it has ended, if it has, and
    /// how many accesses it has made by then, of which `made` came before.
    #[inline(always)]
    fn run_loads(
        &self,
        seat: &mut Seat<u8, SeatView<P, P::Output>>,
        number: u64,
        identity: u64,
        program: &mut P,
        made: u64,
    ) -> (Option<P::Output>, u64) {
        // Read once: a compiler keeps no memory over a load that orders others.
        let most = self.most;
        let mut accesses = made;
        while let WordAccess::Load(register) = program.access() {
            let note = self.step_load(most, seat, number, identity, program, register);
            accesses += 1;
            let ended = note.outcome();
            if ended.is_some() {
                return (ended, accesses);
            }
        }
        (None, accesses)
    }

    /// Makes the accesses of a program that has not begun, one after another, until it ends: with what, and how many they were.
    #[inline(always)]
    pub(crate) fn run(
        &self,
        seat: &mut Seat<u8, SeatView<P, P::Output>>,
        number: u64,
        identity: u64,
        program: &mut P,
    ) -> (P::Output, u64) {
        // Opens the words, so that the machine's bound is known to be small.
        let _most = self.most;
        let mut accesses = 0;
        loop {
            let note = self.step(seat, number, identity, program);
            accesses += 1;
            if let Some(outcome) = note.outcome() {
                return (outcome, accesses);
            }
            let (ended, made) = self.run_loads(seat, number, identity, program, accesses);
            accesses = made;
            if let Some(outcome) = ended {
                return (outcome, accesses);
            }
        }
    }
}
