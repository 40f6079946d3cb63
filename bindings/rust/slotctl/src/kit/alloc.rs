//! Memory that may be refused, in the place of the kit's `std::alloc`: every allocation is asked for by `try_reserve`.

use std::collections::TryReserveError;

/// An allocation failed.
#[derive(Clone, Copy, Debug, PartialEq, Eq)]
pub struct AllocError;

impl std::fmt::Display for AllocError {
    fn fmt(&self, f: &mut std::fmt::Formatter<'_>) -> std::fmt::Result {
        f.write_str("memory allocation failed")
    }
}

impl std::error::Error for AllocError {}

impl From<TryReserveError> for AllocError {
    fn from(_: TryReserveError) -> AllocError {
        AllocError
    }
}

/// Such a fault of the system has this kind, as in the kit.
impl From<AllocError> for std::io::Error {
    fn from(_: AllocError) -> std::io::Error {
        std::io::Error::from(std::io::ErrorKind::OutOfMemory)
    }
}

impl From<AllocError> for std::fmt::Error {
    fn from(_: AllocError) -> std::fmt::Error {
        std::fmt::Error
    }
}

/// An allocation for a value failed, which is given back.
#[derive(Clone, Copy, Debug)]
pub struct AllocFailed<T> {
    /// What could not be stored.
    pub value: T,
}

impl<T> From<AllocFailed<T>> for AllocError {
    fn from(_: AllocFailed<T>) -> AllocError {
        AllocError
    }
}

impl<T> From<AllocFailed<T>> for std::io::Error {
    fn from(_: AllocFailed<T>) -> std::io::Error {
        AllocError.into()
    }
}

/// What is asked for memory. Each asks the allocator of the program, so these types say only whose memory it is.
pub trait Allocator {}

/// The allocator of the program.
#[derive(Clone, Copy, Debug)]
pub struct Global;

impl Allocator for Global {}

/// Rattle's `Clone`, which may fail.
pub trait Clone: Sized {
    /// A copy.
    ///
    /// # Errors
    ///
    /// `AllocError` where an allocation failed.
    fn clone(&self) -> Result<Self, AllocError>;
}

impl<A: Allocator + Copy> Clone for A {
    fn clone(&self) -> Result<A, AllocError> {
        Ok(*self)
    }
}

/// What lends the allocator of the program.
pub trait AllocGlobal {}
