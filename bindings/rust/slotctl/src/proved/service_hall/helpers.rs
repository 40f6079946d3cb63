// Erased by bindings/rust/erase from crates/service_hall/src/helpers.rt, sha256 63e16304c391438d05f4cf12df7437eb6a06384a8e54bb9bf4a31ec0edaa5e4c.
//! Helpers: identities that hold numbers for a while, so that others get the numbers above.

use crate::proved::model_pool::competitor::Competitor;

/// Identities from the largest down that do not compete.
pub(crate) struct Helpers {
    next: u64,
}

impl Helpers {
    /// Makes helpers that have given no identity.
    pub(crate) fn new() -> Helpers {
        Helpers { next: u64::MAX }
    }

    /// Returns the next identity that does not compete. Not proved: compaction compares the result as a whole.
    pub(crate) fn next(&mut self, competitors: &[Competitor]) -> u64 {
        for _ in 0..competitors.len() {
            if !competitors.iter().any(|one| one.identity == self.next) {
                break;
            }
            self.next = self.next.saturating_sub(1);
        }
        let id = self.next;
        self.next = self.next.saturating_sub(1);
        id
    }
}
