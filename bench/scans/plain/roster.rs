//! Who is there, and where each stands.

const HINTS: usize = 256;

/// Identities in the order in which they came. A table says where each stands, by a hash; where it is wrong, all are searched.
pub struct Roster {
    pub identities: Vec<u64>,
    hints: [u8; HINTS],
}

impl Roster {
    pub fn new(most: usize) -> Self {
        Roster { identities: Vec::with_capacity(most), hints: [0; HINTS] }
    }
    pub fn len(&self) -> usize {
        self.identities.len()
    }
    fn hash(identity: u64) -> usize {
        (identity.wrapping_mul(0x9E37_79B9_7F4A_7C15) >> 56) as usize
    }
    #[inline(always)]
    pub fn find(&self, identity: u64) -> Option<usize> {
        let hinted = usize::from(self.hints[Self::hash(identity)]);
        if self.identities.get(hinted) == Some(&identity) {
            return Some(hinted);
        }
        self.identities.iter().position(|it| *it == identity)
    }
    pub fn push(&mut self, identity: u64) {
        self.hints[Self::hash(identity)] = self.len() as u8;
        self.identities.push(identity);
    }
    /// Takes out who stands there. Those behind move up.
    pub fn remove(&mut self, at: usize) {
        self.identities.remove(at);
        for (at, identity) in self.identities.iter().enumerate().skip(at) {
            self.hints[Self::hash(*identity)] = at as u8;
        }
    }
}
