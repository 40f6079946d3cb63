// Erased by bindings/rust/erase from crates/model_steps/src/note.rt, sha256 08c3fe5b8ae3ce4550bfc8ed12fdff39b75270a17c15301e6cbc50815019c96d.
//! What a program returns after a step.

/// What a program returns after a step.
#[derive(Clone, Copy, Debug, PartialEq, Eq)]
pub enum Note<O> {
    /// Nothing: the program goes on.
    Quiet,
    /// An output, after which the program goes on.
    Said(O),
    /// The last output: the program has ended.
    Ended(O),
}

impl<O> Note<O> {
    /// Whether the program has ended with this step.
    pub fn ends(&self) -> bool {
        matches!(self, Note::Ended(_))
    }

    /// Whether the step has no output and the program goes on.
    pub fn is_quiet(&self) -> bool {
        matches!(self, Note::Quiet)
    }
}

impl<O> Note<O> {
    /// Returns the last output of the program, or `None` if the program goes on.
    pub fn outcome(self) -> Option<O> {
        match self {
            Note::Ended(outcome) => Some(outcome),
            Note::Quiet | Note::Said(_) => None,
        }
    }
}
