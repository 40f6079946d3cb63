//! The words of the command line, in the place of the kit's `std::env`.

use super::alloc::{AllocError, Global};
use super::{HostRuntime, String, Vec};
use std::io;

/// The words that the program was called with.
pub struct Args {
    words: std::vec::Vec<std::string::String>,
}

impl Args {
    /// `collect`: the words as a list.
    ///
    /// # Errors
    ///
    /// `AllocError` where an allocation failed.
    pub fn collect(self, alloc: Global) -> Result<Vec<String>, AllocError> {
        let mut made = Vec::with_capacity(alloc, self.words.len())?;
        for word in self.words {
            made.push_reserved(String::of(word));
        }
        Ok(made)
    }
}

/// `args`: the words, where each is text.
///
/// # Errors
///
/// `InvalidInput` where one is no text.
pub fn args(_rt: &HostRuntime) -> io::Result<Args> {
    let mut words = std::vec::Vec::new();
    for word in std::env::args_os() {
        match word.into_string() {
            Ok(text) => words.push(text),
            Err(_) => return Err(io::ErrorKind::InvalidInput.into()),
        }
    }
    Ok(Args { words })
}
