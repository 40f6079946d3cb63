// Erased by bindings/rust/erase from crates/service_follow/src/front_end_stay.rt, sha256 9bdd0f47194455aa7bab45f8362ca75b5cd9ac5b17b25d8ed0b16a6a59a4156b.
//! Who keeps a stay in the pool, as a log tells.

use crate::proved::model_asked::reply::Reply;
use crate::proved::model_steps::refusal::Refusal;

/// How many bytes the token of a front end has, with which its entries begin.
pub const TOKEN: usize = 32;

/// A stay in the pool, and which front end keeps it.
#[derive(Clone, Copy, Debug)]
pub struct FrontEndStay {
    /// The identity that stays.
    pub identity: u64,
    /// The token of the front end at which `enter` was said of it last, and was answered `ok` or `refused 9`.
    pub token: [u8; 32],
    /// How many entries had been applied before the last one of that front end.
    pub last: u64,
}

impl FrontEndStay {
    /// An entry of a front end was applied behind so many others.
    pub(crate) fn hear(&mut self, token: &[u8; 32], place: u64) {
        if self.token == *token {
            self.last = place;
        }
    }
}

/// Returns the first bytes of an entry, the token of its front end; zeros of one that is shorter.
pub(crate) fn token_of(entry: &[u8]) -> [u8; 32] {
    let mut token = [0u8; 32];
    if TOKEN <= entry.len() {
        token.copy_from_slice(&entry[..TOKEN]);
    }
    token
}

// Returns true only if two stays are the same.
fn is_same(stay: &FrontEndStay, other: &FrontEndStay) -> bool {
    if stay.token != other.token {
        return false;
    }
    if stay.identity != other.identity {
        return false;
    }
    stay.last == other.last
}

/// Returns true only if two lists of stays are the same.
pub(crate) fn are_same(kept: &[FrontEndStay], other: &[FrontEndStay]) -> bool {
    if kept.len() != other.len() {
        return false;
    }
    for (i, stay) in kept.iter().enumerate() {
        if !is_same(stay, &other[i]) {
            return false;
        }
    }
    true
}

/// Returns true if and only if the reply to `enter` says that the identity competes.
pub(crate) fn enters(reply: Reply<()>) -> bool {
    matches!(reply, Reply::Ok | Reply::Refused(Refusal::AlreadyCompeting))
}

/// Returns true if and only if the reply to `leave` says that the identity competes no more.
pub(crate) fn leaves(reply: Reply<()>) -> bool {
    matches!(reply, Reply::Left(_))
}
