// Erased by bindings/rust/erase from crates/service_loop/src/seat_numbers.rt, sha256 551065b09d538612741335cd8964d1c6cd3d0ff5256beefb4852ce252a8567f6.
//! The numbers of connections.

use crate::kit::alloc::{AllocError, Global};
use crate::kit::Vec;

/// The number of the connection at each seat, which no other connection ever has. That of a seat in which nobody sat is 0.
pub struct SeatNumbers {
    numbers: Vec<u64>,
    /// The number of the next connection.
    next: u64,
}

impl SeatNumbers {
    /// No seats, with room for a few.
    ///
    /// # Errors
    ///
    /// `AllocError`: an allocation failed.
    pub fn new(alloc: Global, few: usize) -> Result<SeatNumbers, AllocError> {
        Ok(SeatNumbers {
            numbers: Vec::with_capacity(alloc, few)?,
            next: 1,
        })
    }

    /// The numbers, seat by seat.
    pub fn all(&self) -> &[u64] {
        &self.numbers
    }

    /// One seat more, in which nobody sat.
    ///
    /// # Errors
    ///
    /// `AllocError`: an allocation failed.
    pub fn add_seat(&mut self) -> Result<(), AllocError> {
        match self.numbers.push(0) {
            Ok(()) => Ok(()),
            Err(_) => Err(AllocError),
        }
    }

    /// The connection that is given this seat has the next number, which is returned; or 0, where 2^64 connections had one or there is no such seat.
    pub fn number(&mut self, key: usize) -> u64 {
        if key >= self.numbers.len() {
            return 0;
        }
        let Some(later) = self.next.checked_add(1) else {
            self.numbers[key] = 0;
            return 0;
        };
        let number = self.next;
        self.numbers[key] = number;
        self.next = later;
        number
    }
}
