//! What systems have, in the place of the kit's `std::os`.

pub mod fd {
    //! The kit's `std::os::fd`.

    /// The number of an open file.
    pub type RawFd = i32;
}
