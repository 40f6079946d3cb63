// Erased by bindings/rust/erase from crates/model_steps/src/hints.rt, sha256 1a9f8f7f695845d7550526e0e899c7165785e7ca5933171a302a5dfb42740168.
//! The index at which a search for a participant starts.

use crate::proved::model_steps::participant::Participant;

/// Whether the participant at this index is another one, so that the search for an identity goes on after it.
#[inline(always)]
fn is_other<P>(participants: &[Participant<P>], at: usize, id: u64) -> bool {
    participants[at].identity != id
}

/// Finds the index of an identity that no participant before `start` has.
#[inline(always)]
fn search_from<P>(participants: &[Participant<P>], start: usize, id: u64) -> Option<usize> {
    let mut at = start;
    while at < participants.len() {
        if !is_other(participants, at, id) {
            return Some(at);
        }
        at += 1;
    }
    None
}

/// Finds the index of the participant with an identity. One round of the loop compares four.
fn search<P>(participants: &[Participant<P>], id: u64) -> Option<usize> {
    let mut at = 0;
    while at + 4 <= participants.len() {
        if !is_other(participants, at, id) {
            return Some(at);
        }
        if !is_other(participants, at + 1, id) {
            return Some(at + 1);
        }
        if !is_other(participants, at + 2, id) {
            return Some(at + 2);
        }
        if !is_other(participants, at + 3, id) {
            return Some(at + 3);
        }
        at += 4;
    }
    search_from(participants, at, id)
}

/// An index to try first for each identity, so that most searches make one comparison.
///
/// There is one hint for each value of an identity's lowest six bits: the index of the participant with these bits that
/// was added last. A hint may be wrong. `find` then searches all participants, so that contracts see no hint.
#[derive(Clone, Copy, Debug)]
pub struct Hints {
    places: [u8; 64],
}

impl Hints {
    /// Makes hints that try the first participant first. Not proved: which hints these are. `find` is proved for all
    /// hints.
    pub fn new() -> Self {
        Hints { places: [0; 64] }
    }

    /// Records that the participant with this identity was added at index `at`. Not proved: which hints are then kept.
    /// `find` is proved for all hints.
    pub fn note(&mut self, id: u64, at: usize) {
        self.places[(id % 64) as usize] = (at % 64) as u8;
    }

    /// Returns the index of the participant with identity `id`, or `None` if no participant has it.
    #[inline(always)]
    pub fn find<P>(&self, participants: &[Participant<P>], id: u64) -> Option<usize> {
        let hint = usize::from(self.places[(id % 64) as usize]);
        if hint < participants.len() && participants[hint].identity == id {
            return Some(hint);
        }
        search(participants, id)
    }
}
