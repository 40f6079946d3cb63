//! The original `rand_core`, with what the kit's has beside it.

pub use ::rand_core::SeedableRng;

pub mod utils {
    //! The kit's `rand_core::utils`.
    use ::rand_core::RngCore;

    /// A generator whose next word a clause can name.
    pub trait NextWord {
        /// `next_word`: the next word of 32 bits.
        fn next_word(&mut self) -> u32;
    }

    impl<R: RngCore> NextWord for R {
        fn next_word(&mut self) -> u32 {
            self.next_u32()
        }
    }
}
