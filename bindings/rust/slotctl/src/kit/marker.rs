//! The kit's `std::marker::Brand`: a type that names what one call made. No value of it is made.

/// A name that is of one call alone.
#[derive(Clone, Copy)]
pub enum Brand {}
