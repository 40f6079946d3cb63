//! The original `sha2`, whose digests are arrays here.

/// A hash function: a hasher that takes a message piece by piece, and its digest.
pub trait Digest {
    /// The digest, as an array of bytes.
    type Output;

    /// `new`: a hasher of the empty message.
    fn new() -> Self;

    /// `update`: adds bytes to the message.
    fn update<T: AsRef<[u8]>>(&mut self, data: T);

    /// `finalize`: the digest of the message.
    fn finalize(self) -> Self::Output;
}

/// The SHA-256 hash function.
pub struct Sha256(::sha2::Sha256);

impl Digest for Sha256 {
    type Output = [u8; 32];

    fn new() -> Sha256 {
        Sha256(::sha2::Digest::new())
    }

    fn update<T: AsRef<[u8]>>(&mut self, data: T) {
        ::sha2::Digest::update(&mut self.0, data);
    }

    fn finalize(self) -> [u8; 32] {
        ::sha2::Digest::finalize(self.0).into()
    }
}
