// Erased by bindings/rust/erase from crates/service_hall/src/slots_copy.rt, sha256 6c1038d07c42d819a12e5440c9eca60869e801bb7c1d4aa837984cce23bc91a1.
//! A copy of a pool and its slots, as plain values.

use crate::kit::alloc::Global;
use crate::kit::Vec;
use crate::proved::model_asked::event::Event;
use crate::proved::model_pool::competitor::Competitor;
use crate::proved::model_pool::stay::Stay;
use crate::proved::service_hall::stuck::Stuck;

/// A copy of a pool and its slots, which follows accepted events.
pub(crate) struct SlotsCopy {
    /// The most numbers that the pool may get.
    most: u32,
    pub(crate) size: u32,
    pub(crate) bits: Vec<bool>,
    pub(crate) competitors: Vec<Competitor>,
    pub(crate) values: Vec<u64>,
}

/// Returns the index of the competitor with an identity.
fn find(competitors: &[Competitor], id: u64) -> Option<usize> {
    for (i, competitor) in competitors.iter().enumerate() {
        if competitor.identity == id {
            return Some(i);
        }
    }
    None
}

/// Returns the state of a competitor, or `None` if the identity does not compete.
fn stay_of(competitors: &[Competitor], id: u64) -> Option<Stay> {
    for competitor in competitors {
        if competitor.identity == id {
            return Some(competitor.stay);
        }
    }
    None
}

/// Replaces the state of an identity that competes.
fn put_stay(competitors: &mut [Competitor], id: u64, stay: Stay) {
    if let Some(i) = find(competitors, id) {
        let was = competitors[i];
        competitors[i] = Competitor {
            identity: was.identity,
            stay,
        };
    }
}

/// Whether a competitor in this state holds a number.
fn holds(stay: Stay, number: u32) -> bool {
    match stay {
        Stay::Seeking(_) => false,
        Stay::Settled(held) => held == number,
    }
}

/// Returns true only if the two competitors are equal.
fn is_one(one: Competitor, other: Competitor) -> bool {
    if one.identity != other.identity {
        return false;
    }
    match (one.stay, other.stay) {
        (Stay::Seeking(next), Stay::Seeking(beside)) => next == beside,
        (Stay::Settled(number), Stay::Settled(beside)) => number == beside,
        (Stay::Seeking(_), Stay::Settled(_)) => false,
        (Stay::Settled(_), Stay::Seeking(_)) => false,
    }
}

/// Returns true only if the two rows of competitors are equal.
fn is_one_row(row: &[Competitor], other: &[Competitor]) -> bool {
    if row.len() != other.len() {
        return false;
    }
    for (i, competitor) in row.iter().enumerate() {
        if !is_one(*competitor, other[i]) {
            return false;
        }
    }
    true
}

/// Removes the competitor with an identity.
fn remove(competitors: &mut Vec<Competitor>, id: u64) {
    competitors.retain(|competitor| competitor.identity != id);
}

/// Whether a competitor holds this number.
fn is_held(competitors: &[Competitor], number: u32) -> bool {
    for competitor in competitors {
        if holds(competitor.stay, number) {
            return true;
        }
    }
    false
}

/// Sets a bit, and returns whether it was set.
fn set(bits: &mut [bool], number: u32) -> bool {
    let at = number as usize;
    if at >= bits.len() {
        return false;
    }
    let was = bits[at];
    bits[at] = true;
    was
}

/// Clears the bit of a number that is given back, in a pool of this size.
fn release(bits: &mut [bool], size: u32, number: u32) {
    let at = number as usize;
    if number < size && at < bits.len() {
        bits[at] = false;
    }
}

/// Sets the bit of the number that was the last one of a pool, if it is held.
fn keep_last(bits: &mut [bool], competitors: &[Competitor], size: u32) {
    if is_held(competitors, size) {
        let _ = set(bits, size);
    }
}

/// Puts a value into the slot of a number.
fn put_value(values: &mut [u64], number: u32, value: u64) {
    let at = (number as usize).saturating_sub(1);
    if at < values.len() {
        values[at] = value;
    }
}

/// Appends zeros to the values until there are `count`.
fn lengthen(values: &mut Vec<u64>, count: usize) -> Result<(), Stuck> {
    let more = count.saturating_sub(values.len());
    for _i in 0..more {
        values.push(0)?;
    }
    Ok(())
}

/// Returns the state of a competitor after a probe of this number, whose bit is then set.
fn probed(bits: &mut [bool], size: u32, next: u32) -> Stay {
    if size <= next {
        return Stay::Settled(size);
    }
    if !set(bits, next) {
        return Stay::Settled(next);
    }
    if next + 1 < size {
        Stay::Seeking(next + 1)
    } else {
        Stay::Settled(size)
    }
}

/// Returns the number that probes from this one on give, whose bit is then set.
fn sought(bits: &mut [bool], size: u32, next: u32) -> u32 {
    let mut stay = Stay::Seeking(next);
    let mut left = size;
    while left > 0 {
        stay = probed_on(bits, size, stay);
        left -= 1;
    }
    number_at(stay, size)
}

/// Returns the state of a competitor after a probe, which it makes while it seeks.
fn probed_on(bits: &mut [bool], size: u32, stay: Stay) -> Stay {
    match stay {
        Stay::Seeking(next) => probed(bits, size, next),
        Stay::Settled(number) => Stay::Settled(number),
    }
}

/// Returns the number that is held, or the last where none is.
fn number_at(stay: Stay, size: u32) -> u32 {
    match stay {
        Stay::Seeking(_) => size,
        Stay::Settled(number) => number,
    }
}

impl SlotsCopy {
    /// Makes a copy of a fresh pool of `size` numbers, which may get up to `most`. Each slot holds 0.
    pub(crate) fn new(alloc: Global, most: u64, size: u64) -> Result<SlotsCopy, Stuck> {
        Ok(SlotsCopy {
            most: most as u32,
            size: size as u32,
            bits: Vec::from_elem(alloc, false, most as usize + 1)?,
            competitors: Vec::new(alloc),
            values: Vec::from_elem(alloc, 0u64, size as usize)?,
        })
    }

    /// Follows a probe.
    fn probe(&mut self, id: u64) {
        if let Some(Stay::Seeking(next)) = stay_of(&self.competitors, id) {
            let stay = probed(&mut self.bits, self.size, next);
            put_stay(&mut self.competitors, id, stay);
        }
    }

    /// Follows probes until a number is had.
    fn seek(&mut self, id: u64) {
        if let Some(Stay::Seeking(next)) = stay_of(&self.competitors, id) {
            let number = sought(&mut self.bits, self.size, next);
            put_stay(&mut self.competitors, id, Stay::Settled(number));
        }
    }

    /// Follows a holder that leaves.
    fn leave(&mut self, id: u64) {
        if let Some(Stay::Settled(number)) = stay_of(&self.competitors, id) {
            release(&mut self.bits, self.size, number);
            remove(&mut self.competitors, id);
        }
    }

    /// Follows a holder that puts a value.
    fn put(&mut self, id: u64, value: u64) {
        if let Some(Stay::Settled(number)) = stay_of(&self.competitors, id) {
            put_value(&mut self.values, number, value);
        }
    }

    /// Follows a pool that gets more numbers.
    fn widen(&mut self, size: u64) -> Result<(), Stuck> {
        if size > u64::from(self.most) {
            return Err(Stuck);
        }
        lengthen(&mut self.values, size as usize)?;
        keep_last(&mut self.bits, &self.competitors, self.size);
        self.size = size as u32;
        Ok(())
    }

    /// Changes as the pool and the slots do by an accepted event.
    pub(crate) fn follow(&mut self, event: Event) -> Result<(), Stuck> {
        match event {
            Event::Begin(_) => {}
            Event::Step(_) => {}
            Event::Enter(id) => self.competitors.push(Competitor {
                identity: id,
                stay: Stay::Seeking(1),
            })?,
            Event::Probe(id) => self.probe(id),
            Event::Seek(id) => self.seek(id),
            Event::Leave(id) => self.leave(id),
            Event::Put(id, value) => self.put(id, value),
            Event::Get(_) => {}
            Event::Widen(size) => self.widen(size)?,
        }
        Ok(())
    }

    /// Whether a competitor holds this number. Not proved: it only chooses events.
    pub(crate) fn holds(&self, number: u32) -> bool {
        is_held(&self.competitors, number)
    }

    /// Returns true only if the two copies are equal.
    pub(crate) fn is_same(&self, other: &SlotsCopy) -> bool {
        let bits = self.bits == other.bits;
        let competitors = is_one_row(&self.competitors, &other.competitors);
        let values = self.values == other.values;
        if !bits || !competitors || !values {
            return false;
        }
        if self.most != other.most {
            return false;
        }
        self.size == other.size
    }
}
