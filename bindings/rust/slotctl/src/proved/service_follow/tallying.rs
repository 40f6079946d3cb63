// Erased by bindings/rust/erase from crates/service_follow/src/tallying.rt, sha256 a974f872dbdd4dd000ed4ff6a0413a802b005cb5e92b9d6c92e69a89f348996b.
//! How much there is of a hall.

use crate::kit::alloc::Global;
use crate::proved::model_asked::reply::Reply;
use crate::proved::model_pool::competitor::Competitor;
use crate::proved::model_pool::stay::Stay;
use crate::proved::service_hall::hall::{Hall, MOST_EVENTS};
use crate::proved::service_watch::numbers::Tally;

// How many of these competitors hold a number.
fn count_held(competitors: &[Competitor]) -> u64 {
    let mut held = 0;
    for competitor in competitors {
        if matches!(competitor.stay, Stay::Settled(_)) {
            held += 1;
        }
    }
    held
}

// How many numbers of the pool nobody holds; `None` where an allocation failed.
fn numbers_free(alloc: Global, hall: &Hall) -> Option<u64> {
    let pool = hall.slots().pool();
    let Ok(competitors) = pool.competitors(alloc) else {
        return None;
    };
    Some(pool.size().saturating_sub(count_held(&competitors)))
}

// Whether somebody has the name of this number.
fn is_given(hall: &Hall, number: u64) -> bool {
    matches!(hall.owner(number), Reply::Owner(Some(_)))
}

// How many names are given, of those from 1 to 2m - 1.
fn names_given(hall: &Hall) -> u64 {
    let most = 2 * hall.config().m;
    let mut given = 0;
    for number in 1..most {
        if is_given(hall, number) {
            given += 1;
        }
    }
    given
}

/// How many more may compete in the pool of a hall.
pub fn room_of(hall: &Hall) -> u64 {
    let pool = hall.slots().pool();
    pool.size().saturating_sub(pool.count())
}

/// How much there is of a hall, for people: nothing is known of where its history is kept.
pub fn tally_of(alloc: Global, hall: &Hall) -> Tally {
    let events = hall.len();
    Tally {
        events_left: Some(MOST_EVENTS.saturating_sub(events) as u64),
        competitors: Some(hall.slots().pool().count()),
        numbers_free: numbers_free(alloc, hall),
        names_given: Some(names_given(hall)),
        ..Tally::of_events(events as u64)
    }
}
