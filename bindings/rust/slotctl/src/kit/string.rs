//! Text that asks for memory by calls which may fail, in the place of the kit's `String` and its macros.

use super::alloc::{AllocError, Global};
use super::convert::AsStr;
use std::fmt;
use std::ops::Deref;

/// A text.
pub struct String {
    text: std::string::String,
}

impl String {
    /// `new`: an empty text. It allocates nothing.
    pub fn new(_alloc: Global) -> String {
        let text = std::string::String::new();
        String { text }
    }

    /// `from_str`: a copy of a text.
    ///
    /// # Errors
    ///
    /// `AllocError` where an allocation failed, as in each call below that has one.
    pub fn from_str(alloc: Global, text: &str) -> Result<String, AllocError> {
        let mut made = String::new(alloc);
        made.push_str(text)?;
        Ok(made)
    }

    /// `push_str`: appends a text.
    pub fn push_str(&mut self, text: &str) -> Result<(), AllocError> {
        self.text.try_reserve(text.len())?;
        self.text.push_str(text);
        Ok(())
    }

    /// `as_str`: the text.
    pub fn as_str(&self) -> &str {
        &self.text
    }

    /// A text of Rust, for what stands for a part of the kit.
    pub(super) fn of(text: std::string::String) -> String {
        String { text }
    }

    /// `format!`: what `arguments` write.
    pub fn formatted(alloc: Global, arguments: fmt::Arguments<'_>) -> Result<String, AllocError> {
        let mut made = String::new(alloc);
        fmt::Write::write_fmt(&mut made, arguments).map_err(|_| AllocError)?;
        Ok(made)
    }
}

impl fmt::Write for String {
    fn write_str(&mut self, text: &str) -> fmt::Result {
        Ok(self.push_str(text)?)
    }
}

impl Deref for String {
    type Target = str;

    fn deref(&self) -> &str {
        &self.text
    }
}

impl fmt::Display for String {
    fn fmt(&self, f: &mut fmt::Formatter<'_>) -> fmt::Result {
        self.text.fmt(f)
    }
}

impl fmt::Debug for String {
    fn fmt(&self, f: &mut fmt::Formatter<'_>) -> fmt::Result {
        self.text.fmt(f)
    }
}

impl AsStr for String {
    fn as_str(&self) -> &str {
        &self.text
    }
}

/// `format!(in alloc; "..", ..)`: a text of what the arguments write, or `AllocError`.
#[macro_export]
#[doc(hidden)]
macro_rules! kit_format {
    (in $alloc:expr; $($arguments:tt)*) => {
        $crate::kit::String::formatted($alloc, format_args!($($arguments)*))
    };
}

/// `vec![in alloc; a, b]`: a list of these values, or `AllocError`.
#[macro_export]
#[doc(hidden)]
macro_rules! kit_vec {
    (in $alloc:expr; $($item:expr),* $(,)?) => {
        $crate::kit::Vec::from_array($alloc, [$($item),*])
    };
}

pub(crate) use kit_format as format;
pub(crate) use kit_vec as vec;
