// Erased by bindings/rust/erase from crates/model_pool/src/stays/stays.rt, sha256 9dc81e696b4b0718771fdb0f4fd972200a756b805750887081d98f501f2c0db6.
//! The stays that are kept.

use crate::kit::alloc::{AllocError, Global};
use crate::kit::Vec;
use crate::proved::model_pool::stays::keeper::Keeper;
use crate::proved::model_pool::stays::kept_stay::KeptStay;

/// The stays of a pool, each with who keeps it, in the order in which they were entered last.
pub struct Stays {
    stays: Vec<KeptStay>,
}

// A keeper ended at this tick.
fn end_all(stays: &mut [KeptStay], keeper: u64, tick: u64) {
    for stay in stays.iter_mut() {
        stay.keeper = stay.keeper.after_end(keeper, tick);
    }
}

// A keeper said `quit`.
fn quit_all(stays: &mut [KeptStay], keeper: u64) {
    for stay in stays.iter_mut() {
        stay.keeper = stay.keeper.after_quit(keeper);
    }
}

// Whether a keeper keeps any of these.
fn keeps_any(stays: &[KeptStay], keeper: u64) -> bool {
    for stay in stays {
        if stay.keeper.is(keeper) {
            return true;
        }
    }
    false
}

// Whether any keeper keeps the stay of an identity.
fn is_kept(stays: &[KeptStay], identity: u64) -> bool {
    for stay in stays {
        if stay.identity == identity && stay.keeper.is_open() {
            return true;
        }
    }
    false
}

// The identities of all of these that are to end at this tick.
fn all_due(
    alloc: Global,
    stays: &[KeptStay],
    grace: u64,
    tick: u64,
) -> Result<Vec<u64>, AllocError> {
    let mut due = Vec::new(alloc);
    for stay in stays {
        if stay.keeper.is_due(grace, tick) {
            due.push(stay.identity)?;
        }
    }
    Ok(due)
}

// The stays of these identities, which nobody keeps since this tick.
fn gone_since(alloc: Global, identities: &[u64], tick: u64) -> Result<Vec<KeptStay>, AllocError> {
    let mut stays = Vec::new(alloc);
    for identity in identities {
        stays.push(KeptStay {
            identity: *identity,
            keeper: Keeper::Gone(tick),
        })?;
    }
    Ok(stays)
}

impl Stays {
    /// Makes a table without stays.
    pub fn new(alloc: Global) -> Stays {
        Stays {
            stays: Vec::new(alloc),
        }
    }

    /// Makes a table of the stays of these identities, which nobody keeps since this tick.
    ///
    /// # Errors
    ///
    /// - `AllocError`: an allocation failed.
    pub fn all_gone(alloc: Global, identities: &[u64], tick: u64) -> Result<Stays, AllocError> {
        let stays = gone_since(alloc, identities, tick)?;
        Ok(Stays { stays })
    }

    /// A keeper said `enter` of this identity, which was accepted or refused since the identity competes: from now on it keeps the stay.
    ///
    /// # Errors
    ///
    /// - `AllocError`: an allocation failed. Then the table has no stay of the identity, so that none of it ever is due.
    pub fn entered(&mut self, identity: u64, keeper: u64) -> Result<(), AllocError> {
        self.left(identity);
        self.stays.push(KeptStay {
            identity,
            keeper: Keeper::Open(keeper),
        })?;
        Ok(())
    }

    /// A `leave` of this identity was accepted: the stay has ended.
    pub fn left(&mut self, identity: u64) {
        self.stays.retain(|stay| stay.identity != identity);
    }

    /// A keeper ended at this tick: nobody keeps its stays from then on.
    pub fn ended(&mut self, keeper: u64, tick: u64) {
        end_all(&mut self.stays, keeper, tick);
    }

    /// A keeper said `quit`: its stays are due at once.
    pub fn quit(&mut self, keeper: u64) {
        quit_all(&mut self.stays, keeper);
    }

    /// Whether a keeper keeps any stay.
    pub fn keeps_any(&self, keeper: u64) -> bool {
        keeps_any(&self.stays, keeper)
    }

    /// Whether any keeper keeps the stay of this identity: one that has not ended.
    pub fn is_kept(&self, identity: u64) -> bool {
        is_kept(&self.stays, identity)
    }

    /// Returns the identities of all stays that are to end at this tick.
    ///
    /// # Errors
    ///
    /// - `AllocError`: an allocation failed.
    pub fn due(&self, alloc: Global, grace: u64, tick: u64) -> Result<Vec<u64>, AllocError> {
        all_due(alloc, &self.stays, grace, tick)
    }
}
