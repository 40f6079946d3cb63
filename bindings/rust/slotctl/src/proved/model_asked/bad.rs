// Erased by bindings/rust/erase from crates/model_asked/src/bad.rt, sha256 daee75a846b779bf53813a8f3e014c156e4d6376a297a5f79740e3f0cbe6fdc5.
//! Why a line is no command.

/// Why a line is no command: the first of these that fits.
#[derive(Clone, Copy, Debug, PartialEq, Eq)]
pub enum Bad {
    /// It is longer than 100 bytes.
    TooLong = 1,
    /// A byte of it is outside 0x20..=0x7E.
    NotPrintable = 2,
    /// Its first word is unknown.
    UnknownWord = 3,
    /// It has another count of words than its command.
    WrongCount = 4,
    /// A number in it is not `0` or digits without a leading zero, or is above 18446744073709551615.
    BadNumber = 5,
}

impl Bad {
    /// Returns the number, from 1 to 5, that is written after `bad`.
    pub fn number(self) -> u8 {
        self as u8
    }
}
