//! A pool with a slot for each number.

use crate::roster::Roster;
use std::mem;

/// The most numbers of a pool.
const MOST: usize = 64;

#[derive(Clone, Copy)]
pub enum Stay {
    Seeking(usize),
    Settled(usize),
}

pub struct Pool {
    pub size: usize,
    pub values: [u64; MOST + 1],
    pub roster: Roster,
    pub stays: Vec<Stay>,
    bits: [bool; MOST + 1],
}

impl Pool {
    pub fn new(size: usize) -> Self {
        Pool { size, values: [0; MOST + 1], roster: Roster::new(MOST), stays: Vec::with_capacity(MOST), bits: [false; MOST + 1] }
    }
    fn held_at(&self, at: Option<usize>) -> Result<usize, u64> {
        match self.stays[at.ok_or(8u64)?] {
            Stay::Seeking(_) => Err(11),
            Stay::Settled(number) => Ok(number),
        }
    }
    /// The number that an identity holds.
    #[inline(always)]
    pub fn held(&self, identity: u64) -> Result<usize, u64> {
        self.held_at(self.roster.find(identity))
    }
    pub fn enter(&mut self, identity: u64) -> Result<(), u64> {
        if identity == 0 {
            return Err(1);
        }
        if self.roster.find(identity).is_some() {
            return Err(9);
        }
        if self.size <= self.stays.len() {
            return Err(7);
        }
        self.roster.push(identity);
        self.stays.push(Stay::Seeking(1));
        Ok(())
    }
    /// The number that it then holds, if it does.
    #[inline(always)]
    pub fn probe(&mut self, identity: u64) -> Result<Option<usize>, u64> {
        let at = self.roster.find(identity).ok_or(8u64)?;
        let Stay::Seeking(bit) = self.stays[at] else {
            return Err(10);
        };
        let missed = bit < self.size && mem::replace(&mut self.bits[bit], true);
        if missed && bit + 1 < self.size {
            self.stays[at] = Stay::Seeking(bit + 1);
            return Ok(None);
        }
        let number = if missed { self.size } else { bit.min(self.size) };
        self.stays[at] = Stay::Settled(number);
        Ok(Some(number))
    }
    pub fn leave(&mut self, identity: u64) -> Result<usize, u64> {
        let at = self.roster.find(identity);
        let number = self.held_at(at)?;
        if number < self.size {
            self.bits[number] = false;
        }
        if let Some(at) = at {
            self.roster.remove(at);
            self.stays.remove(at);
        }
        Ok(number)
    }
    pub fn put(&mut self, identity: u64, value: u64) -> Result<(), u64> {
        let number = self.held(identity)?;
        self.values[number] = value;
        Ok(())
    }
    pub fn widen(&mut self, size: u64) -> Result<(), u64> {
        if size <= self.size as u64 || (MOST as u64) < size {
            return Err(14);
        }
        let last = self.size;
        self.bits[last] = self.stays.iter().any(|stay| matches!(stay, Stay::Settled(number) if *number == last));
        self.size = size as usize;
        Ok(())
    }
}
