// Erased by bindings/rust/erase from crates/model_steps/src/shortcut.rt, sha256 e07bfacadf2d38fb2e37dd02bab25af1407112d158aca294d7cfd415c76b6f35.
//! Steps that copy no value.

use crate::proved::model_steps::memory::StepMemory;
use crate::proved::model_steps::program::StepProgram;
use crate::proved::model_steps::refusal::NoMemory;

/// A way to take some steps of a program on a memory, both in place, so that no value is copied.
pub trait Shortcut<P: StepProgram, S: StepMemory<Reg = P::Reg, Value = P::Value>>: Sized {
    /// What it reports of a step.
    type Reported;

    /// Takes the program's step if the program goes on after it, and reports its note.
    ///
    /// Returns `None` if it does not take this step. Nothing has then changed.
    ///
    /// # Errors
    ///
    /// `NoMemory`: the access needed memory and the allocation failed. Nothing has changed, and the step is still to be
    /// taken.
    fn take(program: &mut P, memory: &mut S) -> Result<Option<Self::Reported>, NoMemory>;
}
