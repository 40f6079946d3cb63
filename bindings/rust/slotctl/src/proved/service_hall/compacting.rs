// Erased by bindings/rust/erase from crates/service_hall/src/compacting.rt, sha256 a557f3645d2ca0c1a277e94637f0ce3c0bd7a232bffb1da60067d184ab840222.
//! Compaction: a new hall with the same desk and fewer events.

use crate::kit::alloc::Global;
use crate::proved::model_asked::config::Config;
use crate::proved::model_asked::event::Event;
use crate::proved::model_asked::kind::WorldKind;
use crate::proved::service_hall::hall::Hall;
use crate::proved::service_hall::plan::lead;
use crate::proved::service_hall::rebuilding::Rebuilding;
use crate::proved::service_hall::same::is_same;
use crate::proved::service_hall::slots_copy::SlotsCopy;
use crate::proved::service_hall::stuck::Stuck;

/// Whether an event is of renaming, and not of the pool or the slots.
fn is_renaming(event: Event) -> bool {
    match event {
        Event::Begin(_) => true,
        Event::Step(_) => true,
        Event::Enter(_) => false,
        Event::Probe(_) => false,
        Event::Seek(_) => false,
        Event::Leave(_) => false,
        Event::Put(_, _) => false,
        Event::Get(_) => false,
        Event::Widen(_) => false,
    }
}

/// Takes the event at a place of a hall into a new one if it is of renaming. Otherwise it follows the event in a copy.
fn sort(hall: &Hall, place: usize, new: &mut Rebuilding, old: &mut SlotsCopy) -> Result<(), Stuck> {
    // The call is for its clause that the history satisfies the specification.
    let _ = hall.len();
    let Some(exchange) = hall.get(place) else {
        return Err(Stuck);
    };
    if !is_renaming(exchange.event) {
        return old.follow(exchange.event);
    }
    new.take(exchange.event)?;
    Ok(())
}

/// A hall with the renaming of another, and a copy of the pool and the slots of that.
struct Sorted {
    new: Rebuilding,
    old: SlotsCopy,
}

/// Sorts all events of a hall.
fn sort_all(alloc: Global, hall: &Hall) -> Result<Sorted, Stuck> {
    let config = hall.config();
    let mut new = Rebuilding::new(alloc, config)?;
    let mut old = SlotsCopy::new(alloc, config.world.most_numbers(), config.k)?;
    for place in 0..hall.len() {
        sort(hall, place, &mut new, &mut old)?;
    }
    Ok(Sorted { new, old })
}

/// Builds a new hall with the desk of another.
fn rebuilt(alloc: Global, hall: &Hall) -> Result<Hall, Stuck> {
    let Sorted { mut new, old } = sort_all(alloc, hall)?;
    lead(alloc, &mut new, &old)?;
    if !old.is_same(&new.slots) {
        return Err(Stuck);
    }
    let Rebuilding { hall: built, .. } = new;
    Ok(built)
}

/// Returns a hall of the same config, with the same desk and fewer events.
///
/// It has the events of renaming as they are. In place of those of the pool and the slots it has events that lead there
/// from the start. Not proved: these are at most some 150,000.
///
/// Returns `None` if the new hall would not have fewer events, or if an allocation failed. The time is linear in the
/// length of the history.
pub fn compacted(alloc: Global, hall: &Hall) -> Option<Hall> {
    let Ok(new) = rebuilt(alloc, hall) else {
        return None;
    };
    if new.len() < hall.len() {
        return Some(new);
    }
    None
}

/// Returns true only if two halls of renaming alone have the same history.
fn is_one_history(one: &Hall, other: &Hall) -> bool {
    if one.len() != other.len() {
        return false;
    }
    for place in 0..one.len() {
        let (Some(exchange), Some(beside)) = (one.get(place), other.get(place)) else {
            return false;
        };
        if !is_same(&exchange, &beside) {
            return false;
        }
    }
    true
}

/// Compares two halls of one config; the error is `Stuck` if their desks or their events of renaming differ.
fn compare(alloc: Global, hall: &Hall, new: &Hall) -> Result<(), Stuck> {
    let sorted = sort_all(alloc, hall)?;
    let other = sort_all(alloc, new)?;
    if !is_one_history(&sorted.new.hall, &other.new.hall) {
        return Err(Stuck);
    }
    if !sorted.old.is_same(&other.old) {
        return Err(Stuck);
    }
    Ok(())
}

/// Returns true only if the two worlds are the same.
fn is_same_world(one: WorldKind, other: WorldKind) -> bool {
    match (one, other) {
        (WorldKind::Splitter, WorldKind::Splitter) => true,
        (WorldKind::Grid, WorldKind::Grid) => true,
        (WorldKind::Rename, WorldKind::Rename) => true,
        (WorldKind::Tree, WorldKind::Tree) => true,
        (WorldKind::Wide, WorldKind::Wide) => true,
        _ => false,
    }
}

/// Returns true only if the two configs are the same.
fn is_same_config(one: Config, other: Config) -> bool {
    if !is_same_world(one.world, other.world) {
        return false;
    }
    if one.m != other.m {
        return false;
    }
    if one.k != other.k {
        return false;
    }
    if one.limit != other.limit {
        return false;
    }
    true
}

/// Returns true only if the second hall is a compaction of the first: it has the same config, the same desk, the same events
/// of renaming, and fewer events.
///
/// Returns false if an allocation failed. Only tested: that it returns true of what `compacted` returns. The time is linear
/// in the lengths of the histories.
pub fn is_compacted(alloc: Global, hall: &Hall, new: &Hall) -> bool {
    if new.len() >= hall.len() {
        return false;
    }
    let one = new.config();
    let other = hall.config();
    if !is_same_config(one, other) {
        return false;
    }
    let Ok(()) = compare(alloc, hall, new) else {
        return false;
    };
    true
}
