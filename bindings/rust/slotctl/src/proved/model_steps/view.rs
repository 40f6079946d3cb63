// Erased by bindings/rust/erase from crates/model_steps/src/view.rt, sha256 961a63da97ac64ddb9bc98cdf6446cedf29f2c0b1c7598e353dcb04522c15fba.
//! What a scan returns.

/// A list of pairs of an identity and its value, by strictly rising identity, as a scan returns it.
///
/// It holds at most 64 pairs, in the value itself, so that it allocates nothing. Contracts see the list.
#[derive(Clone, Copy, Debug)]
pub struct View {
    pairs: [(u64, u64); 64],
    len: usize,
}

/// Puts a pair into the first `len` pairs, in order, or replaces the pair of its identity. Returns whether there is one
/// more.
fn put_in(pairs: &mut [(u64, u64)], len: usize, pair: (u64, u64)) -> bool {
    let mut carried = pair;
    for i in 0..len {
        let here = pairs[i];
        if carried.0 <= here.0 {
            pairs[i] = carried;
            if carried.0 == here.0 {
                return false;
            }
            carried = here;
        }
    }
    pairs[len] = carried;
    true
}

/// Replaces the pair of the same identity, which is present.
fn replace_in(pairs: &mut [(u64, u64)], pair: (u64, u64)) {
    for i in 0..pairs.len() {
        if pairs[i].0 == pair.0 {
            pairs[i] = pair;
            return;
        }
    }
}

impl View {
    /// The most pairs.
    pub const ROOM: usize = 64;

    /// Makes a view with no pair.
    pub fn new() -> Self {
        View {
            pairs: [(0, 0); 64],
            len: 0,
        }
    }

    /// Returns the pairs, by rising identity.
    pub fn pairs(&self) -> &[(u64, u64)] {
        &self.pairs[..self.len]
    }

    /// Adds the pair of an identity and this value, or replaces the identity's pair.
    ///
    /// A view that is full takes only an identity that has a pair.
    pub fn insert(&mut self, identity: u64, value: u64) {
        if self.len == View::ROOM {
            replace_in(&mut self.pairs, (identity, value));
            return;
        }
        if put_in(&mut self.pairs, self.len, (identity, value)) {
            self.len += 1;
        }
    }
}

impl PartialEq for View {
    /// Whether both have the same pairs.
    fn eq(&self, other: &View) -> bool {
        self.pairs() == other.pairs()
    }
}

impl Eq for View {}
