// Erased by bindings/rust/erase from crates/model_steps/src/participant.rt, sha256 91ebaacd53943ccb4277fced4d1f3fe8429d6121c1214f03e13a669168599ba6.
//! One participant of a world.

use crate::proved::model_steps::access::Answer;
use crate::proved::model_steps::memory::StepMemory;
use crate::proved::model_steps::note::Note;
use crate::proved::model_steps::program::{Request, StepProgram};
use crate::proved::model_steps::refusal::NoMemory;
use crate::proved::model_steps::shortcut::Shortcut;

/// A participant of a world: an identity and its program.
#[derive(Debug)]
pub struct Participant<P> {
    /// Its identity; not 0.
    pub identity: u64,
    /// Its program, with the program's state.
    pub program: P,
    /// Whether its program has ended.
    pub ended: bool,
}

impl<P: StepProgram> Participant<P> {
    /// Gives its program the answer to the access, and returns the program's note.
    pub fn resume(&mut self, got: Answer<P::Value>) -> Note<P::Output> {
        let note = self.program.resume(got);
        self.ended = note.ends();
        note
    }

    /// Gives its program the value that its access reads, without a copy, if the program then goes on with no output.
    ///
    /// Returns whether it did. If not, nothing has changed.
    pub fn read_on(&mut self, got: &P::Value) -> bool {
        if !self.program.read_on(got) {
            return false;
        }
        self.ended = false;
        true
    }

    /// Takes the step of its program by the shortcut `Q`, and returns what the shortcut reports.
    ///
    /// Returns `None` if the shortcut does not take this step. Nothing has then changed.
    ///
    /// # Errors
    ///
    /// `NoMemory`: the access needed memory and the allocation failed. Nothing has changed.
    pub fn take<Q: Shortcut<P, S>, S: StepMemory<Reg = P::Reg, Value = P::Value>>(
        &mut self,
        memory: &mut S,
    ) -> Result<Option<Q::Reported>, NoMemory> {
        let Some(reported) = Q::take(&mut self.program, memory)? else {
            return Ok(None);
        };
        self.ended = false;
        Ok(Some(reported))
    }
}

impl<P> Participant<P> {
    /// Makes a request of its program, with no access. The participant has then not ended.
    pub fn ask<Q: Request<P>>(&mut self, request: Q) {
        request.ask(&mut self.program);
        self.ended = false;
    }
}
