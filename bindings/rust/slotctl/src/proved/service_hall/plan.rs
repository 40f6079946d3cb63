// Erased by bindings/rust/erase from crates/service_hall/src/plan.rt, sha256 6c7def88319ed998a6d0dcd40e491ea28886ebf69c9fede2c5cd7fd2ccb85bcb.
//! The events that lead a fresh pool and slots to the state of others.

use crate::kit::alloc::Global;
use crate::kit::Vec;
use crate::proved::model_asked::config::MOST_NUMBERS;
use crate::proved::model_asked::event::Event;
use crate::proved::model_asked::reply::Reply;
use crate::proved::model_pool::competitor::Competitor;
use crate::proved::model_pool::stay::Stay;
use crate::proved::service_hall::helpers::Helpers;
use crate::proved::service_hall::rebuilding::Rebuilding;
use crate::proved::service_hall::slots_copy::SlotsCopy;
use crate::proved::service_hall::stuck::Stuck;
use crate::proved::service_hall::wide_plan::lead_wide;

/// A helper with the number that it holds.
#[derive(Clone, Copy)]
struct Held {
    id: u64,
    number: u32,
}

/// Probes until this competitor gets a number, and returns the number.
fn settle(new: &mut Rebuilding, id: u64) -> Result<u32, Stuck> {
    for _ in 0..MOST_NUMBERS {
        if let Reply::Got(number) = new.take(Event::Probe(id))? {
            return Ok(number);
        }
    }
    Err(Stuck)
}

/// Probes until the next probe of this competitor is of this number.
fn seek(new: &mut Rebuilding, id: u64, number: u32) -> Result<(), Stuck> {
    for _ in 1..number {
        new.take(Event::Probe(id))?;
    }
    Ok(())
}

/// Lets a helper enter and take the lowest number that is free.
fn help(new: &mut Rebuilding, id: u64) -> Result<Held, Stuck> {
    new.take(Event::Enter(id))?;
    let number = settle(new, id)?;
    Ok(Held { id, number })
}

/// Lets all helpers leave.
fn dismiss(new: &mut Rebuilding, helpers: &[Held]) -> Result<(), Stuck> {
    for helper in helpers {
        new.take(Event::Leave(helper.id))?;
    }
    Ok(())
}

/// Lets a helper put the value of its number, unless that is 0.
fn put(new: &mut Rebuilding, helper: Held, values: &[u64]) -> Result<(), Stuck> {
    let at = (helper.number as usize).saturating_sub(1);
    match values.get(at) {
        Some(0) => Ok(()),
        Some(value) => {
            new.take(Event::Put(helper.id, *value))?;
            Ok(())
        }
        None => Ok(()),
    }
}

/// Lets each helper put the value of its number.
fn put_all(new: &mut Rebuilding, helpers: &[Held], values: &[u64]) -> Result<(), Stuck> {
    for helper in helpers {
        put(new, *helper, values)?;
    }
    Ok(())
}

/// Returns the number of the last slot with a value other than 0, or 0. Not proved: compaction compares the result as a
/// whole.
pub(crate) fn last_value(values: &[u64]) -> usize {
    let mut last = 0;
    for (i, value) in values.iter().enumerate() {
        if *value != 0 {
            last = i + 1;
        }
    }
    last
}

/// Fills the slots: helpers take the numbers up to the last slot with a value, put the values and leave.
fn fill(
    alloc: Global,
    new: &mut Rebuilding,
    old: &SlotsCopy,
    helpers: &mut Helpers,
) -> Result<(), Stuck> {
    let mut held = Vec::new(alloc);
    for _ in 0..last_value(&old.values) {
        held.push(help(new, helpers.next(&old.competitors))?)?;
    }
    put_all(new, &held, &old.values)?;
    dismiss(new, &held)
}

/// Lets a helper take this number, if it is free and all below are held.
fn hold(new: &mut Rebuilding, id: u64, number: u32, held: &mut Vec<Held>) -> Result<(), Stuck> {
    if new.slots.holds(number) {
        return Ok(());
    }
    held.push(help(new, id)?)?;
    Ok(())
}

/// Lets helpers take the free numbers below this one.
fn hold_below(
    alloc: Global,
    new: &mut Rebuilding,
    old: &SlotsCopy,
    helpers: &mut Helpers,
    number: u32,
) -> Result<Vec<Held>, Stuck> {
    let mut held = Vec::new(alloc);
    for below in 1..number {
        let id = helpers.next(&old.competitors);
        hold(new, id, below, &mut held)?;
    }
    Ok(held)
}

/// Returns the number that a competitor holds or probes next. Not proved: compaction compares the result as a whole.
fn place(stay: Stay) -> u32 {
    match stay {
        Stay::Seeking(number) => number,
        Stay::Settled(number) => number,
    }
}

/// Lets a competitor that has entered probe until its state is this one. All numbers below are held.
fn go(new: &mut Rebuilding, id: u64, stay: Stay) -> Result<(), Stuck> {
    match stay {
        Stay::Seeking(number) => seek(new, id, number),
        Stay::Settled(_) => {
            settle(new, id)?;
            Ok(())
        }
    }
}

/// Lets a competitor enter and go to its state, while helpers hold the free numbers below.
fn enter(
    alloc: Global,
    new: &mut Rebuilding,
    old: &SlotsCopy,
    helpers: &mut Helpers,
    competitor: Competitor,
) -> Result<(), Stuck> {
    let id = competitor.identity;
    new.take(Event::Enter(id))?;
    let held = hold_below(alloc, new, old, helpers, place(competitor.stay))?;
    go(new, id, competitor.stay)?;
    dismiss(new, &held)
}

/// Gives the pool as many numbers as this, if it has fewer.
fn widen(new: &mut Rebuilding, size: u32) -> Result<(), Stuck> {
    if new.slots.size < size {
        new.take(Event::Widen(u64::from(size)))?;
    }
    Ok(())
}

/// Leads a fresh pool and slots to the state of the others. Only tested: that they reach it, which the caller compares.
pub(crate) fn lead(alloc: Global, new: &mut Rebuilding, old: &SlotsCopy) -> Result<(), Stuck> {
    widen(new, old.size)?;
    if new.hall.config().world.is_wide() {
        lead_wide(alloc, new, old)
    } else {
        lead_narrow(alloc, new, old)
    }
}

/// Leads a fresh pool and slots of few numbers, which have as many, to the state of the others.
fn lead_narrow(alloc: Global, new: &mut Rebuilding, old: &SlotsCopy) -> Result<(), Stuck> {
    let mut helpers = Helpers::new();
    fill(alloc, new, old, &mut helpers)?;
    for competitor in &old.competitors {
        enter(alloc, new, old, &mut helpers, *competitor)?;
    }
    Ok(())
}
