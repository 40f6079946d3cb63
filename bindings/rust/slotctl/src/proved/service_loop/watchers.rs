// Erased by bindings/rust/erase from crates/service_loop/src/watchers.rt, sha256 31ac25874957356adb88915e0e92fc3257394cbd1c7827f3a57059682c3aab80.
//! Those who wait for changes of who holds numbers.

use crate::kit::alloc::{AllocError, Global};
use crate::kit::Vec;
use std::mem;

/// The seats whose connections wait for changes of who holds numbers.
pub struct Watchers {
    alloc: Global,
    seats: Vec<usize>,
    /// The point at which the changes ended when it was last looked.
    end: u64,
}

impl Watchers {
    /// Nobody waits.
    pub fn new(alloc: Global) -> Watchers {
        Watchers {
            alloc,
            seats: Vec::new(alloc),
            end: 0,
        }
    }

    /// Whether the connection of a seat waits.
    pub fn has(&self, key: usize) -> bool {
        self.seats.contains(&key)
    }

    /// The connection of a seat waits from now on.
    ///
    /// # Errors
    ///
    /// `AllocError`: an allocation failed.
    pub fn add(&mut self, key: usize) -> Result<(), AllocError> {
        if !self.has(key) {
            self.seats.push(key)?;
        }
        Ok(())
    }

    /// The changes end at this point now. Takes out those who wait, where it is another than before.
    pub fn take_due(&mut self, end: u64) -> Vec<usize> {
        let none = Vec::new(self.alloc);
        if self.end == end {
            return none;
        }
        self.end = end;
        mem::replace(&mut self.seats, none)
    }
}
