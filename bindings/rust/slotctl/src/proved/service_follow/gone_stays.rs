// Erased by bindings/rust/erase from crates/service_follow/src/gone_stays.rt, sha256 b0f095d4a608b18f42f449ef60c092b5964969d6d4a156cb1d006ce6c462fb49.
//! Stays that end since their front ends are gone, for people.

use crate::kit::alloc::Global;
use crate::kit::Vec;
use crate::proved::service_follow::front_end_stay::FrontEndStay;

/// The identities whose stays the last entry of a front end ends since their own front ends are gone. No clause speaks of them.
pub(crate) struct GoneStays {
    offered: Vec<u64>,
    /// Whether that entry stands.
    stands: bool,
}

impl GoneStays {
    /// There are none.
    pub(crate) fn new(alloc: Global) -> GoneStays {
        GoneStays {
            offered: Vec::new(alloc),
            stands: false,
        }
    }

    /// None were ended.
    pub(crate) fn clear(&mut self) {
        self.offered.clear();
        self.stands = false;
    }

    /// These stays are to end, of which those of other front ends than the one of this token are noted, as far as there is room.
    pub(crate) fn note(&mut self, token: &[u8; 32], kept: &[FrontEndStay], ended: &[u64]) {
        self.clear();
        for stay in kept {
            if stay.token != *token && ended.contains(&stay.identity) {
                let _ = self.offered.push(stay.identity);
            }
        }
    }

    /// The entry that ends them stands.
    pub(crate) fn stand(&mut self) {
        self.stands = true;
    }

    /// Those that were ended.
    pub(crate) fn ended(&self) -> &[u64] {
        if self.stands {
            &self.offered
        } else {
            &[]
        }
    }
}
