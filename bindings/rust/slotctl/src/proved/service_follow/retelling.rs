// Erased by bindings/rust/erase from crates/service_follow/src/retelling.rt, sha256 15e3081d8d426474a0ef5debade34dea77c17e027b49851ba8096628cd716cb5.
//! Whether a compaction tells the hall that it is of.

use crate::kit::alloc::Global;
use crate::proved::model_asked::config::Config;
use crate::proved::service_hall::compacting::is_compacted;
use crate::proved::service_hall::hall::Hall;
use crate::proved::service_hall::same::is_same;

// Returns true only if two halls have the same history.
fn is_one_history(one: &Hall, other: &Hall) -> bool {
    if one.len() != other.len() {
        return false;
    }
    for place in 0..one.len() {
        let (Some(exchange), Some(beside)) = (one.get(place), other.get(place)) else {
            return false;
        };
        if !is_same(&exchange, &beside) {
            return false;
        }
    }
    true
}

// Returns true only if two configs are the same.
fn is_same_config(one: Config, other: Config) -> bool {
    if one.world != other.world {
        return false;
    }
    if one.m != other.m {
        return false;
    }
    if one.k != other.k {
        return false;
    }
    if one.limit != other.limit {
        return false;
    }
    true
}

// Returns true only if two halls have the same config and the same history.
fn is_same_hall(hall: &Hall, new: &Hall) -> bool {
    if !is_same_config(new.config(), hall.config()) {
        return false;
    }
    is_one_history(hall, new)
}

/// Returns true only if the second hall is a compaction of the first, or the same.
pub(crate) fn is_retold(alloc: Global, hall: &Hall, new: &Hall) -> bool {
    is_same_hall(hall, new) || is_compacted(alloc, hall, new)
}
