// Erased by bindings/rust/erase from crates/words_machine/src/word_access.rt, sha256 8b421c83fc1c80de3fea4bb08e678f484b53f24b769b0250efe114e49b88260a.
//! What a program accesses next.

use crate::proved::model_steps::access::Access;

/// The next access of a program to the words: of which register, and, if a word is stored, which.
#[derive(Clone, Copy, Debug)]
pub enum WordAccess<R> {
    /// It loads the word of this register.
    Load(R),
    /// It stores this word into this register.
    Store(R, u64),
    /// It makes no access.
    Nothing,
}

impl<R: Copy> WordAccess<R> {
    /// Returns the access to a word that this access to a register is. What neither reads nor writes is none.
    #[inline(always)]
    pub(crate) fn of(access: Access<R, u64>) -> WordAccess<R> {
        match access {
            Access::Read(r) => WordAccess::Load(r),
            Access::Write(r, word) => WordAccess::Store(r, word),
            Access::TestAndSet(_) => WordAccess::Nothing,
            Access::Clear(_) => WordAccess::Nothing,
            Access::Nothing => WordAccess::Nothing,
        }
    }
}
