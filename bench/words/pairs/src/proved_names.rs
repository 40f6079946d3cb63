//! The proved names through their C functions.

use std::ptr;

#[repr(C)]
pub struct ProvedSeat {
    at: *mut u8,
}

// SAFETY: the library proves that a handle may go to another thread; each is used by one call at a time.
unsafe impl Send for ProvedSeat {}

unsafe extern "C" {
    fn word_names_new(names: *mut ProvedSeat, most: u64) -> bool;
    fn word_names_join(names: *mut ProvedSeat, other: *mut ProvedSeat, identity: u64) -> bool;
    fn word_names_name(names: *mut ProvedSeat) -> u64;
    fn word_names_free(names: *mut ProvedSeat);
}

impl ProvedSeat {
    fn none() -> ProvedSeat {
        ProvedSeat { at: ptr::null_mut() }
    }

    /// The seats of new names, one for each identity.
    pub fn all(most: usize, identities: &[u64]) -> Vec<ProvedSeat> {
        let mut dealer = ProvedSeat::none();
        // SAFETY: the handle holds none yet.
        assert!(unsafe { word_names_new(&mut dealer, most as u64) });
        let mut seats = Vec::new();
        for identity in identities {
            let mut next = ProvedSeat::none();
            // SAFETY: the dealer holds names, the other none yet.
            assert!(unsafe { word_names_join(&mut dealer, &mut next, *identity) });
            seats.push(next);
        }
        seats
    }

    pub fn name(&mut self) -> u64 {
        // SAFETY: a handle outside `none` holds names.
        unsafe { word_names_name(self) }
    }
}

impl Drop for ProvedSeat {
    fn drop(&mut self) {
        // SAFETY: as above.
        unsafe { word_names_free(self) }
    }
}
