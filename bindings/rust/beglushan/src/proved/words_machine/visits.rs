// Erased by bindings/rust/erase from crates/words_machine/src/visits.rt, sha256 bd967e46299441b876cdae6e59842b400ddd6f9280b418849a035f8cf5d5cb80.
//! A visit to a splitter as a program over two words.

use crate::proved::model_splitter::visitor::Visitor;
use crate::proved::model_splitter::way::Way;
use crate::proved::model_steps::access::Answer;
use crate::proved::model_steps::note::Note;
use crate::proved::model_steps::program::StepProgram;
use crate::proved::words_machine::program::WordProgram;
use crate::proved::words_machine::word_access::WordAccess;

impl WordProgram for Visitor<usize> {
    type Reg = usize;

    type Output = Way;

    fn registers(_most: u64) -> usize {
        2
    }

    fn place(_most: u64, register: usize) -> usize {
        register
    }

    fn access(&self) -> WordAccess<usize> {
        WordAccess::of(self.next())
    }

    fn take_word(&mut self, word: u64) -> Note<Way> {
        self.resume(Answer::Value(word))
    }

    fn take_done(&mut self) -> Note<Way> {
        self.resume(Answer::Done)
    }

    fn start(_most: u64, seat: u64, _identity: u64) -> Self {
        Visitor::new(seat, 0, 1)
    }
}
