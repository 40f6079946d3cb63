// Erased by bindings/rust/erase from crates/words_machine/src/program.rt, sha256 bbcbd5658827dd4718e540bad0a2b8c42c92330e3ddcf2c5fcffd5ecb0a269e6.
//! Programs whose registers are words.

use crate::proved::model_steps::note::Note;
use crate::proved::words_machine::word_access::WordAccess;

/// A program each of whose registers is a word, with the machine on which it is proved.
///
/// Each step of the machine is one access of one participant's program. So a law that holds after every list of its calls
/// holds of threads that take the program access by access.
pub trait WordProgram: Sized {
    /// What names a register.
    type Reg: Copy;

    /// What the program ends with.
    type Output;

    /// Returns how many registers there are for so many participants.
    fn registers(most: u64) -> usize;

    /// Returns the word of a register.
    fn place(most: u64, register: Self::Reg) -> usize;

    /// Returns the access that it makes next.
    fn access(&self) -> WordAccess<Self::Reg>;

    /// Takes the word that it loaded.
    fn take_word(&mut self, word: u64) -> Note<Self::Output>;

    /// Takes that its word is stored.
    fn take_done(&mut self) -> Note<Self::Output>;

    /// Returns the program of a seat, from 1 on, that begins with an identity.
    fn start(most: u64, seat: u64, identity: u64) -> Self;
}
