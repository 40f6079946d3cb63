// Erased by bindings/rust/erase from crates/words_machine/src/names.rt, sha256 c511606d3a97fff4c58c3015d379b91e95340869d1ba06ec87b085d2a63d5c5d.
//! Recursive renaming as a program over words.

use crate::proved::model_recursion::namer::{Cell, Namer};
use crate::proved::model_steps::access::Answer;
use crate::proved::model_steps::note::Note;
use crate::proved::model_steps::program::StepProgram;
use crate::proved::words_machine::program::WordProgram;
use crate::proved::words_machine::word_access::WordAccess;

/// Returns the number of an instance among those of its level.
#[inline(always)]
fn slot(most: u64, _level: u8, first: u16) -> u64 {
    if first % 2 == 1 {
        u64::from(first) - 1
    } else {
        2 * most - 1 - u64::from(first)
    }
}

impl WordProgram for Namer {
    type Reg = Cell;

    type Output = u16;

    fn registers(most: u64) -> usize {
        (most * most * most) as usize
    }

    #[inline(always)]
    fn place(most: u64, register: Cell) -> usize {
        let above = most - u64::from(register.level);
        let slot = slot(most, register.level, register.first);
        ((above * above + slot) * most + (u64::from(register.seat) - 1)) as usize
    }

    #[inline(always)]
    fn access(&self) -> WordAccess<Cell> {
        WordAccess::of(self.next())
    }

    #[inline(always)]
    fn take_word(&mut self, word: u64) -> Note<u16> {
        self.resume(Answer::Value(word))
    }

    #[inline(always)]
    fn take_done(&mut self) -> Note<u16> {
        self.resume(Answer::Done)
    }

    fn start(most: u64, seat: u64, identity: u64) -> Self {
        Namer::new(most as u8, seat as u8, identity)
    }
}
