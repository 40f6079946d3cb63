// Erased by bindings/rust/erase from crates/model_steps/src/program.rt, sha256 f0761874ff576a0ec140ff77e270b515157a0e0eb19f0cf7c96f7406bdae80e9.
//! Programs that take one access a step.

use crate::proved::model_steps::access::{Access, Answer};
use crate::proved::model_steps::note::Note;

/// A participant's program, with its state.
///
/// The next access is a function of the program alone. What follows is a function of the program and of the answer
/// alone.
pub trait StepProgram: Sized {
    /// What names a register.
    type Reg: Copy;

    /// What a register holds.
    type Value;

    /// What the program returns to its caller.
    type Output;

    /// Returns the access of the next step.
    fn next(&self) -> Access<Self::Reg, Self::Value>;

    /// Takes the answer to that access, and returns the note of the step.
    fn resume(&mut self, got: Answer<Self::Value>) -> Note<Self::Output>;

    /// Returns the register that the next access reads, if the program can take a value that is lent (`read_on`).
    fn reads(&self) -> Option<Self::Reg> {
        None
    }

    /// Takes the value that the access reads, without a copy, if the program then goes on with no output.
    ///
    /// Returns whether it did. If not, nothing has changed, and `resume` takes the answer.
    fn read_on(&mut self, _got: &Self::Value) -> bool {
        false
    }
}

/// A request to a program between two steps, which makes no access.
pub trait Request<P>: Sized {
    /// Makes the request of a program, in place.
    fn ask(self, program: &mut P);
}
