//! Places that participants find, each of which then belongs to one of them.

pub trait Places {
    /// Where a participant stands on its way to a place.
    type Way;
    /// Where a collect stands: what it accesses next.
    type Walk: Copy;

    fn new(m: usize) -> Self;
    /// How many places `m` participants can make.
    fn most(m: usize) -> usize;
    fn way() -> Self::Way;
    /// One access on the way; the place at its end.
    fn place(&mut self, way: &mut Self::Way, identity: u64) -> Option<usize>;
    fn walk() -> Self::Walk;
    /// The place whose segment a collect reads here; none where it reads a mark.
    fn reads(walk: Self::Walk) -> Option<usize>;
    /// Where the collect goes on; none at its end.
    fn next(&self, walk: Self::Walk) -> Option<Self::Walk>;
    /// The number that replies tell.
    fn number(&self, place: usize) -> u128;
}
