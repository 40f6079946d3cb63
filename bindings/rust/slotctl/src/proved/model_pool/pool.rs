// Erased by bindings/rust/erase from crates/model_pool/src/pool.rt, sha256 3bbc46421a52d70da45d2d11ec09281c94c7adaf3594e3a200ff8bf9c9c26917.
//! The pool.

use crate::kit::alloc::Allocator;
use crate::kit::Clone;
use crate::kit::Vec;
use crate::proved::model_pool::competitor::Competitor;
use crate::proved::model_pool::probe::Probe;
use crate::proved::model_pool::roster::Roster;
use crate::proved::model_pool::stay::Stay;
use crate::proved::model_steps::access::{Access, Answer};
use crate::proved::model_steps::memory::{Memory, StepMemory};
use crate::proved::model_steps::refusal::{NoMemory, Refusal};

/// The most numbers that any pool may have, and the most competitors.
pub const MOST_NUMBERS: usize = 65_536;

/// A pool of the numbers from 1 to its size (Moir and Anderson 1995).
///
/// Each number below the size has a bit, which is set while the number is held. The last number has none. All bits below
/// `low` are set. So probes from there on find what those from bit 1 on find.
pub struct Pool<A: Allocator> {
    size: u32,
    low: u32,
    bits: Memory<(), A>,
    competitors: Roster<A>,
}

/// Whether a bit was clear, by the answer to a test-and-set.
fn was_clear(got: Answer<()>) -> bool {
    matches!(got, Answer::WasSet(false))
}

/// Probes the bits from `first` on, and returns the number that they give. Those below `from` are set, and are passed over.
fn seek<A: Allocator>(bits: &mut Memory<(), A>, size: u32, _first: u32, from: u32) -> u32 {
    for bit in from..size {
        let got = bits.access(Access::TestAndSet(bit as usize)).unwrap();
        if was_clear(got) {
            return bit;
        }
    }
    size
}

/// Returns the bit below which all are set, where all below `low` are, and all from `next` on below `number`.
fn low_after(low: u32, next: u32, number: u32) -> u32 {
    if next <= low {
        number
    } else {
        low
    }
}

impl<A: Allocator + Clone> Pool<A> {
    /// Makes a pool of the numbers from 1 to `size`, which may get `most`, and for which nobody competes. No other call
    /// but `competitors` allocates.
    ///
    /// # Errors
    ///
    /// - `OutOfRange`: `size` is not from 1 to `most`, or `most` is above 65,536.
    /// - `NoMemory`: an allocation failed.
    pub fn new(alloc: A, most: u64, size: u64) -> Result<Self, Refusal> {
        if size < 1 || size > most || most > MOST_NUMBERS as u64 {
            return Err(Refusal::OutOfRange);
        }
        let bits = Memory::new(alloc.clone()?, (), 0, most as usize + 1)?;
        let competitors = Roster::new(alloc, most as usize)?;
        Ok(Pool {
            size: size as u32,
            low: 1,
            bits,
            competitors,
        })
    }
}

impl<A: Allocator> Pool<A> {
    /// Returns the present size, which is the largest number: from 1 to the most.
    pub fn size(&self) -> u64 {
        u64::from(self.size)
    }

    /// Returns the most numbers that the pool may get.
    pub fn most(&self) -> u64 {
        self.competitors.most() as u64
    }

    /// Returns how many compete.
    pub fn count(&self) -> u64 {
        self.competitors.len() as u64
    }

    /// Returns the competitors, in the order in which they entered.
    ///
    /// # Errors
    ///
    /// `NoMemory`: an allocation failed.
    pub fn competitors<B: Allocator>(&self, alloc: B) -> Result<Vec<Competitor, B>, NoMemory> {
        let mut out = Vec::new(alloc);
        self.competitors.copy(&mut out)?;
        Ok(out)
    }

    /// Returns the state of a competitor, or `None` if the identity does not compete.
    pub fn stay_of(&self, id: u64) -> Option<Stay> {
        self.competitors.stay_of(id)
    }

    /// Returns the number that `id` holds. This makes no access.
    ///
    /// # Errors
    ///
    /// The first that applies is returned:
    ///
    /// - `NotCompeting`: `id` does not compete.
    /// - `NotHolding`: `id` competes and holds no number.
    pub fn number_of(&self, id: u64) -> Result<u32, Refusal> {
        match self.stay_of(id) {
            None => Err(Refusal::NotCompeting),
            Some(Stay::Seeking(_)) => Err(Refusal::NotHolding),
            Some(Stay::Settled(number)) => Ok(number),
        }
    }

    /// Returns the identity that holds this number, or `None` if no identity holds it.
    pub fn holder_of(&self, number: u32) -> Option<u64> {
        self.competitors.holder(number)
    }

    /// Returns the error that `enter` would return, or `None` if it would succeed.
    pub fn enter_refusal(&self, id: u64) -> Option<Refusal> {
        if id == 0 {
            Some(Refusal::ZeroIdentity)
        } else if self.stay_of(id).is_some() {
            Some(Refusal::AlreadyCompeting)
        } else if self.size as usize <= self.competitors.len() {
            Some(Refusal::Crowded)
        } else {
            None
        }
    }

    /// Makes `id` a competitor, which holds no number. This makes no access.
    ///
    /// # Errors
    ///
    /// An error changes nothing. The first that applies is returned:
    ///
    /// - `ZeroIdentity`: `id` is 0.
    /// - `AlreadyCompeting`: `id` competes.
    /// - `Crowded`: as many compete as the pool has numbers.
    pub fn enter(&mut self, id: u64) -> Result<(), Refusal> {
        if let Some(refusal) = self.enter_refusal(id) {
            return Err(refusal);
        }
        self.competitors.add(id, Stay::Seeking(1));
        Ok(())
    }

    /// Returns the error that `probe` would return, or `None` if it would succeed.
    pub fn probe_refusal(&self, id: u64) -> Option<Refusal> {
        self.next_probe(id).err()
    }

    /// Returns the number of the bit that competitor `id`, which holds no number, probes next.
    fn next_probe(&self, id: u64) -> Result<u32, Refusal> {
        match self.stay_of(id) {
            None => Err(Refusal::NotCompeting),
            Some(Stay::Seeking(next)) => Ok(next),
            Some(Stay::Settled(_)) => Err(Refusal::Holding),
        }
    }

    /// Makes one probe of competitor `id`: the `i`-th since it entered tests and sets bit `i`.
    ///
    /// It gets number `i` if the bit was clear. If the bit was set and no bit is left, it gets the last number.
    ///
    /// # Errors
    ///
    /// An error changes nothing. The first that applies is returned:
    ///
    /// - `NotCompeting`: `id` does not compete.
    /// - `Holding`: `id` holds a number.
    ///
    /// # Steps
    ///
    /// At most one access. A competitor has a number after at most `max(1, k - 1)` probes in a pool of size `k`.
    pub fn probe(&mut self, id: u64) -> Result<Probe, Refusal> {
        let next = self.next_probe(id)?;
        let stay = Stay::Seeking(next);
        let got = self.bits.access(stay.probe_access(self.size)).unwrap();
        let stay = stay.probed(self.size, got);
        self.competitors.put(id, stay);
        Ok(stay.probe_reply())
    }

    /// Probes in one call, until `id` has a number, and returns the number.
    ///
    /// # Errors
    ///
    /// Those of `probe`, in that order. An error changes nothing.
    ///
    /// # Steps
    ///
    /// Those of the probes that it stands for, each of one access: at most `max(1, k - 1)` in a pool of size `k`. The identity is
    /// searched once, and bits that are known to be set are passed over.
    pub fn seek(&mut self, id: u64) -> Result<u32, Refusal> {
        let first = self.next_probe(id)?;
        let number = seek(&mut self.bits, self.size, first, first.max(self.low));
        self.low = low_after(self.low, first, number);
        self.competitors.put(id, Stay::Settled(number));
        Ok(number)
    }

    /// Gives back the number that `id` holds, and returns it. The identity then competes no more.
    ///
    /// # Errors
    ///
    /// An error changes nothing. The first that applies is returned:
    ///
    /// - `NotCompeting`: `id` does not compete.
    /// - `NotHolding`: `id` competes and holds no number.
    ///
    /// # Steps
    ///
    /// At most one access, which clears the number's bit.
    pub fn leave(&mut self, id: u64) -> Result<u32, Refusal> {
        let number = self.number_of(id)?;
        let access = Stay::Settled(number).leave_access(self.size);
        self.bits.access(access).unwrap();
        self.competitors.remove(id);
        self.low = self.low.min(number);
        Ok(number)
    }

    /// Returns the error that `widen` would return, or `None` if it would succeed.
    pub fn widen_refusal(&self, size: u64) -> Option<Refusal> {
        if size <= self.size() || size > self.most() {
            Some(Refusal::OutOfRange)
        } else {
            None
        }
    }

    /// Gives the pool more numbers: those from 1 to `size`. Each competitor keeps its number. This allocates nothing.
    ///
    /// The last number had no bit. If it is held, this call sets its bit.
    ///
    /// # Errors
    ///
    /// `OutOfRange`: `size` is not above the present size, or is above the most. Nothing has changed.
    ///
    /// # Steps
    ///
    /// At most one access.
    pub fn widen(&mut self, size: u64) -> Result<(), Refusal> {
        if let Some(refusal) = self.widen_refusal(size) {
            return Err(refusal);
        }
        let access = if self.competitors.holder(self.size).is_some() {
            Access::TestAndSet(self.size as usize)
        } else {
            Access::Nothing
        };
        self.bits.access(access).unwrap();
        self.size = size as u32;
        Ok(())
    }
}
