// Erased by bindings/rust/erase from crates/text_checker/src/judges/stays.rt, sha256 72ea279b6e951cd2a99f93451b971f2fa570f30923cc9ae5b901fb1c7c7abcd6.
//! The state of the pool and the slots.

use crate::kit::alloc::{AllocError, Global};
use crate::kit::Vec;
use crate::proved::model_steps::participant::Participant;
use crate::proved::model_steps::refusal::Refusal;
use crate::proved::text_checker::judges::names::is_number;
use crate::proved::text_checker::judges::people::People;

/// The present stay of a competitor.
#[derive(Clone, Copy)]
pub struct Stay {
    /// The number of probes that it has made.
    pub probes: u64,
    /// The number that it holds, or `None`.
    pub held: Option<u64>,
}

/// The state of the pool and the slots: the competitors, what they hold, and the values in the slots.
pub struct Stays {
    most: u64,
    size: u64,
    competitors: People<Stay>,
    values: Vec<u64>,
}

/// Whether a competitor holds this number.
fn is_taken(competitors: &[Participant<Stay>], number: u64) -> bool {
    competitors
        .iter()
        .any(|competitor| is_number(competitor.program.held, number))
}

impl Stays {
    /// Makes the state in which nobody competes and each slot holds 0. The pool may get up to `most` numbers.
    ///
    /// # Errors
    ///
    /// `AllocError`: the allocation failed.
    pub fn new(alloc: Global, most: u64, size: u64) -> Result<Stays, AllocError> {
        let values = Vec::from_elem(alloc, 0u64, size as usize)?;
        Ok(Stays {
            most,
            size,
            competitors: People::new(alloc),
            values,
        })
    }

    /// Returns the error that `enter` of an identity must return, or `None`.
    pub fn enter_refusal(&self, id: u64) -> Option<Refusal> {
        self.competitors
            .entry_refusal(id, self.size, Refusal::AlreadyCompeting, Refusal::Crowded)
    }

    /// Returns the error that `probe` of an identity must return, or `None`.
    pub fn probe_refusal(&self, id: u64) -> Option<Refusal> {
        match self.competitors.find(id) {
            None => Some(Refusal::NotCompeting),
            Some(stay) => match stay.held {
                None => None,
                Some(_) => Some(Refusal::Holding),
            },
        }
    }

    /// Returns the number that an identity holds, or the error that `leave`, `put` and `get` of it must return.
    ///
    /// # Errors
    ///
    /// The first that applies is returned:
    ///
    /// - `NotCompeting`: the identity does not compete.
    /// - `NotHolding`: the identity competes and holds no number.
    pub fn number_of(&self, id: u64) -> Result<u64, Refusal> {
        match self.competitors.find(id) {
            None => Err(Refusal::NotCompeting),
            Some(stay) => match stay.held {
                None => Err(Refusal::NotHolding),
                Some(number) => Ok(number),
            },
        }
    }

    /// Returns the error that a widening to `more` numbers must return, or `None`.
    pub fn widen_refusal(&self, more: u64) -> Option<Refusal> {
        if more <= self.size || self.most < more {
            Some(Refusal::OutOfRange)
        } else {
            None
        }
    }

    /// Records that an identity, which may enter, enters.
    ///
    /// # Errors
    ///
    /// `AllocError`: the allocation failed. The state is then of no use.
    pub fn enter(&mut self, id: u64) -> Result<(), AllocError> {
        let program = Stay {
            probes: 0,
            held: None,
        };
        self.competitors.push(id, program)
    }

    /// Whether the next probe of an identity that may probe may be missed.
    pub fn may_miss(&self, id: u64) -> bool {
        match self.competitors.find(id) {
            Some(stay) => stay.probes.saturating_add(1) != self.size.saturating_sub(1).max(1),
            None => false,
        }
    }

    /// Records that an identity misses a probe that may be missed.
    pub fn miss(&mut self, id: u64) {
        let Some(stay) = self.competitors.find(id) else {
            return;
        };
        let missed = Stay {
            probes: stay.probes.saturating_add(1),
            held: None,
        };
        self.competitors.put(id, missed);
    }

    /// Whether a number is one of the pool that nobody holds.
    pub fn is_free(&self, number: u64) -> bool {
        if number < 1 {
            return false;
        }
        if self.size < number {
            return false;
        }
        !is_taken(self.competitors.list(), number)
    }

    /// Gives a free number to an identity that may probe.
    pub fn gain(&mut self, id: u64, number: u64) {
        let Some(stay) = self.competitors.find(id) else {
            return;
        };
        let got = Stay {
            probes: stay.probes.saturating_add(1),
            held: Some(number),
        };
        self.competitors.put(id, got);
    }

    /// Records that an identity gives back the number that it holds.
    pub fn leave(&mut self, id: u64) {
        self.competitors.remove(id);
    }

    /// Puts a value into the slot of a number that is held.
    pub fn store(&mut self, number: u64, value: u64) {
        let place = number.saturating_sub(1) as usize;
        if place < self.values.len() {
            self.values[place] = value;
        }
    }

    /// Whether the slot of a number has this value.
    pub fn has_value(&self, number: u64, value: u64) -> bool {
        let place = number.saturating_sub(1) as usize;
        place < self.values.len() && self.values[place] == value
    }

    /// Gives the pool more numbers, up to `more`. Each new slot holds 0.
    ///
    /// # Errors
    ///
    /// `AllocError`: the allocation failed. The state is then of no use.
    pub fn widen(&mut self, more: u64) -> Result<(), AllocError> {
        self.values.resize(more as usize, 0)?;
        self.size = more;
        Ok(())
    }
}
