// Erased by bindings/rust/erase from crates/service_host/src/keepers.rt, sha256 b4ec5195391525a5d2a8dd6fe060ebab13f7069f1247ea3fb8075947c133dd59.
//! Who keeps the stays of a hall at the start of its server.

use crate::kit::alloc::{AllocError, Global};
use crate::kit::Vec;
use crate::proved::model_pool::competitor::Competitor;
use crate::proved::model_pool::stays::stays::Stays;
use crate::proved::service_hall::hall::Hall;
use crate::proved::service_host::failure::HostFailure;

/// The tick at which a server starts.
const START: u64 = 0;

// The identities of competitors.
fn identities_of(alloc: Global, competitors: &[Competitor]) -> Result<Vec<u64>, AllocError> {
    let mut ids = Vec::new(alloc);
    for competitor in competitors {
        ids.push(competitor.identity)?;
    }
    Ok(ids)
}

/// The stays of a hall as its server starts: those of all that compete are kept by nobody since then, where stays are to end, and else none is noted.
///
/// # Errors
///
/// `Memory`: an allocation failed.
pub fn stays_at_start(
    alloc: Global,
    hall: &Hall,
    grace: Option<u64>,
) -> Result<Stays, HostFailure> {
    if grace.is_none() {
        return Ok(Stays::new(alloc));
    }
    let competitors = hall.slots().pool().competitors(alloc)?;
    let ids = identities_of(alloc, &competitors)?;
    Ok(Stays::all_gone(alloc, &ids, START)?)
}
