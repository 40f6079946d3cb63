// Erased by bindings/rust/erase from crates/service_follow/src/release_lines.rt, sha256 69e413fd9a9c7f51bf00913a1ec7b2fd716a0bae1e6c5c8063bff87347e5f13e.
//! The lines by which stays end.

use crate::kit::alloc::{AllocError, Global};
use crate::kit::format;
use crate::kit::String;
use crate::kit::Vec;
use crate::proved::service_hall::hall::Hall;

// The line that has an identity leave.
fn leave_line(alloc: Global, id: u64) -> Result<String, AllocError> {
    format!(in alloc; "leave {id}\n")
}

// The line that has an identity look for a number, in the wide world or in another.
fn search_line(alloc: Global, wide: bool, id: u64) -> Result<String, AllocError> {
    if wide {
        format!(in alloc; "seek {id}\n")
    } else {
        format!(in alloc; "probe {id}\n")
    }
}

// How many such lines have an identity hold a number, if it competes.
fn searches_for(hall: &Hall, id: u64) -> u64 {
    let pool = hall.slots().pool();
    match pool.number_of(id) {
        Ok(_) => 0,
        Err(_) => {
            if hall.config().world.is_wide() {
                1
            } else {
                pool.size()
            }
        }
    }
}

// Appends a line so many times.
fn push_searches(lines: &mut Vec<u8>, line: &[u8], count: u64) -> Result<(), AllocError> {
    if count == 0 {
        return Ok(());
    }
    lines.extend_from_slice(line)?;
    push_searches(lines, line, count - 1)
}

// Appends the lines by which the stay of an identity ends.
fn push_release(
    alloc: Global,
    lines: &mut Vec<u8>,
    hall: &Hall,
    id: u64,
) -> Result<(), AllocError> {
    let search = search_line(alloc, hall.config().world.is_wide(), id)?;
    push_searches(lines, search.as_bytes(), searches_for(hall, id))?;
    let leave = leave_line(alloc, id)?;
    lines.extend_from_slice(leave.as_bytes())?;
    Ok(())
}

/// Returns the lines by which the stays of these identities end: `leave`, and before it `seek`, or as many `probe` as the pool has
/// numbers, where the identity holds none.
///
/// # Errors
///
/// `AllocError`: an allocation failed.
pub(crate) fn lines_of(alloc: Global, hall: &Hall, ids: &[u64]) -> Result<Vec<u8>, AllocError> {
    let mut lines = Vec::new(alloc);
    for id in ids {
        push_release(alloc, &mut lines, hall, *id)?;
    }
    Ok(lines)
}
