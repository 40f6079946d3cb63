// Erased by bindings/rust/erase from crates/words_machine/src/walks.rt, sha256 0b89799401f2b76ae1cc80e848ffbd3686a5ec45aa81d3d245d61ffa0d4f90b3.
//! A walk through a grid of splitters as a program over words, two for each door.

use crate::proved::model_splitter::grid::door::Door;
use crate::proved::model_splitter::grid::walker::Walker;
use crate::proved::model_steps::access::Answer;
use crate::proved::model_steps::note::Note;
use crate::proved::model_steps::place::Place;
use crate::proved::model_steps::program::StepProgram;
use crate::proved::words_machine::program::WordProgram;
use crate::proved::words_machine::word_access::WordAccess;

impl WordProgram for Walker {
    type Reg = usize;

    type Output = Place;

    fn registers(most: u64) -> usize {
        (most * (most + 1)) as usize
    }

    fn place(_most: u64, register: usize) -> usize {
        register
    }

    fn access(&self) -> WordAccess<usize> {
        WordAccess::of(self.next())
    }

    fn take_word(&mut self, word: u64) -> Note<Place> {
        self.resume(Answer::Value(word))
    }

    fn take_done(&mut self) -> Note<Place> {
        self.resume(Answer::Done)
    }

    fn start(_most: u64, seat: u64, _identity: u64) -> Self {
        Walker::new(seat, Door::corner())
    }
}
