//! What is read as text, in the place of the kit's `std::convert`.

/// What has a text.
pub trait AsStr {
    /// `as_str`: the text.
    fn as_str(&self) -> &str;
}

impl AsStr for &str {
    fn as_str(&self) -> &str {
        self
    }
}
