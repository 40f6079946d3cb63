// Erased by bindings/rust/erase from crates/text_checker/src/reason.rt, sha256 02161a55e0ab7399f7f8492c9931f00a02cf410179bf3be56ccc4ac861c44bf9.
//! Why a line cannot follow.

/// Why a line cannot follow those before it. If several reasons fit, the least is reported. (The numbers are not in the
/// papers.)
#[derive(Clone, Copy, Debug, PartialEq, Eq)]
pub enum Reason {
    /// It is no reply of the command.
    Reply = 1,
    /// A refusal is due and none or another one is reported, or one is reported and none is due.
    Refusal = 2,
    /// The place was given before, or the identity has one.
    Place = 3,
    /// The number is none that may be proposed, or the count of proposals is not one for this reply.
    Proposal = 4,
    /// The view is no moment since the identity's last proposal, or another proposes the same in no such moment.
    View = 5,
    /// The name is not one that the identity may have.
    Name = 6,
    /// The pool or the slots do not give this reply.
    Pool = 7,
}

impl Reason {
    /// Returns the number of the reason, from 1 to 7.
    pub fn number(self) -> u8 {
        self as u8
    }
}
