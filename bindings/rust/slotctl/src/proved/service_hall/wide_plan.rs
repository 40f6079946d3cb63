// Erased by bindings/rust/erase from crates/service_hall/src/wide_plan.rt, sha256 5edd6113893420cad890ad59e783b737c1cf69e6df80c5d1d83323c6aca3e900.
//! The events that lead a fresh pool of many numbers and its slots to the state of others: a few for each number in use.

use crate::kit::alloc::Global;
use crate::kit::Vec;
use crate::proved::model_asked::event::Event;
use crate::proved::model_pool::competitor::Competitor;
use crate::proved::model_pool::stay::Stay;
use crate::proved::service_hall::helpers::Helpers;
use crate::proved::service_hall::plan::last_value;
use crate::proved::service_hall::rebuilding::Rebuilding;
use crate::proved::service_hall::slots_copy::SlotsCopy;
use crate::proved::service_hall::stuck::Stuck;

/// Returns the last number that somebody holds or has probed, or 0. Not proved: compaction compares the result as a whole.
fn last_probed(competitors: &[Competitor]) -> usize {
    let mut last = 0;
    for competitor in competitors {
        last = last.max(match competitor.stay {
            Stay::Seeking(next) => next.saturating_sub(1),
            Stay::Settled(number) => number,
        });
    }
    last as usize
}

/// Returns who holds each number, that of number 1 first. Not proved: compaction compares the result as a whole.
fn holders_of(alloc: Global, old: &SlotsCopy) -> Result<Vec<Option<u64>>, Stuck> {
    let mut holders = Vec::from_elem(alloc, None, old.size as usize)?;
    for competitor in &old.competitors {
        if let Stay::Settled(number) = competitor.stay {
            let at = (number as usize).saturating_sub(1);
            if at < holders.len() {
                holders[at] = Some(competitor.identity);
            }
        }
    }
    Ok(holders)
}

/// Lets all these enter, in their order.
fn enter_all(new: &mut Rebuilding, competitors: &[Competitor]) -> Result<(), Stuck> {
    for competitor in competitors {
        new.take(Event::Enter(competitor.identity))?;
    }
    Ok(())
}

/// Lets a helper enter, and notes it.
fn call_helper(
    new: &mut Rebuilding,
    old: &SlotsCopy,
    helpers: &mut Helpers,
    held: &mut Vec<u64>,
) -> Result<u64, Stuck> {
    let id = helpers.next(&old.competitors);
    held.push(id)?;
    new.take(Event::Enter(id))?;
    Ok(id)
}

/// Lets an identity that has entered take the lowest number that is free, and put its value, unless that is 0.
fn settle(new: &mut Rebuilding, id: u64, value: u64) -> Result<(), Stuck> {
    new.take(Event::Seek(id))?;
    if value != 0 {
        new.take(Event::Put(id, value))?;
    }
    Ok(())
}

/// Lets the holder of a number, or a helper where it is free, take it and put its value. All numbers below are held.
fn hold(
    new: &mut Rebuilding,
    old: &SlotsCopy,
    helpers: &mut Helpers,
    held: &mut Vec<u64>,
    holder: Option<u64>,
    value: u64,
) -> Result<(), Stuck> {
    match holder {
        Some(id) => settle(new, id, value),
        None => {
            let id = call_helper(new, old, helpers, held)?;
            settle(new, id, value)
        }
    }
}

/// Lets all numbers up to the last in use be held, by who held them or by helpers, who are returned.
fn hold_all(alloc: Global, new: &mut Rebuilding, old: &SlotsCopy) -> Result<Vec<u64>, Stuck> {
    let holders = holders_of(alloc, old)?;
    let last = last_probed(&old.competitors).max(last_value(&old.values));
    let mut helpers = Helpers::new();
    let mut held = Vec::new(alloc);
    for (at, holder) in holders.iter().enumerate() {
        if last <= at {
            break;
        }
        let value = old.values.get(at).copied().unwrap_or(0);
        hold(new, old, &mut helpers, &mut held, *holder, value)?;
    }
    Ok(held)
}

/// Lets a competitor probe until its state is this one, if it seeks. All numbers below are held.
fn go(new: &mut Rebuilding, id: u64, stay: Stay) -> Result<(), Stuck> {
    let probes = match stay {
        Stay::Seeking(next) => next.saturating_sub(1),
        Stay::Settled(_) => 0,
    };
    for _ in 0..probes {
        new.take(Event::Probe(id))?;
    }
    Ok(())
}

/// Lets all that seek probe as often as they did.
fn go_all(new: &mut Rebuilding, competitors: &[Competitor]) -> Result<(), Stuck> {
    for competitor in competitors {
        go(new, competitor.identity, competitor.stay)?;
    }
    Ok(())
}

/// Lets these leave.
fn dismiss(new: &mut Rebuilding, held: &[u64]) -> Result<(), Stuck> {
    for id in held {
        new.take(Event::Leave(*id))?;
    }
    Ok(())
}

/// Leads a fresh pool and slots, which have as many numbers, to the state of the others. Only tested: that they reach it,
/// which the caller compares.
pub(crate) fn lead_wide(alloc: Global, new: &mut Rebuilding, old: &SlotsCopy) -> Result<(), Stuck> {
    enter_all(new, &old.competitors)?;
    let held = hold_all(alloc, new, old)?;
    go_all(new, &old.competitors)?;
    dismiss(new, &held)
}
