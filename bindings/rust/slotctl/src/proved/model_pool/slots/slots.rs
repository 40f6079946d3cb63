// Erased by bindings/rust/erase from crates/model_pool/src/slots/slots.rt, sha256 38d0f78b5e079b7a9d2f6f6351450662e671e671167aeaeda642526766404841.
//! Slots over a pool.

use crate::kit::alloc::Allocator;
use crate::kit::Vec;
use crate::proved::model_pool::pool::Pool;
use crate::proved::model_pool::probe::Probe;
use crate::proved::model_steps::refusal::{NoMemory, Refusal};

/// A pool of numbers, with a slot for each number.
pub struct Slots<T, A: Allocator> {
    pool: Pool<A>,
    values: Vec<T, A>,
}

/// Appends `more` copies of a value to a vector that has room for them.
fn fill<T: Copy, A: Allocator>(values: &mut Vec<T, A>, more: usize, value: T) {
    for _i in 0..more {
        values.push_reserved(value);
    }
}

impl<T, A: Allocator> Slots<T, A> {
    /// Makes slots over a pool, one for each of its numbers. The slot of number 1 holds the first of `values`.
    ///
    /// It allocates room for a value of each number that the pool may get, unless `values` has it.
    ///
    /// # Errors
    ///
    /// `NoMemory`: the allocation failed.
    pub fn new(pool: Pool<A>, values: Vec<T, A>) -> Result<Self, NoMemory> {
        let mut values = values;
        let spare = (pool.most() - pool.size()) as usize;
        match values.reserve(spare) {
            Ok(()) => Ok(Slots { pool, values }),
            Err(_) => Err(NoMemory),
        }
    }

    /// Returns the pool.
    pub fn pool(&self) -> &Pool<A> {
        &self.pool
    }

    /// Returns the values in the slots. The first is that of number 1.
    pub fn values(&self) -> &[T] {
        self.values.as_slice()
    }

    /// Makes `id` a competitor, as `Pool::enter` does.
    ///
    /// # Errors
    ///
    /// An error changes nothing. The first that applies is returned:
    ///
    /// - `ZeroIdentity`: `id` is 0.
    /// - `AlreadyCompeting`: `id` competes.
    /// - `Crowded`: as many compete as the pool has numbers.
    pub fn enter(&mut self, id: u64) -> Result<(), Refusal> {
        self.pool.enter(id)
    }

    /// Makes one probe of competitor `id`, as `Pool::probe` does: at most one access.
    ///
    /// # Errors
    ///
    /// An error changes nothing. The first that applies is returned:
    ///
    /// - `NotCompeting`: `id` does not compete.
    /// - `Holding`: `id` holds a number.
    pub fn probe(&mut self, id: u64) -> Result<Probe, Refusal> {
        self.pool.probe(id)
    }

    /// Lets competitor `id` probe until it has a number, as `Pool::seek` does.
    ///
    /// # Errors
    ///
    /// Those of `probe`, in that order. An error changes nothing.
    pub fn seek(&mut self, id: u64) -> Result<u32, Refusal> {
        self.pool.seek(id)
    }

    /// Gives back the number that `id` holds, as `Pool::leave` does: at most one access. The number's slot keeps its
    /// value.
    ///
    /// # Errors
    ///
    /// An error changes nothing. The first that applies is returned:
    ///
    /// - `NotCompeting`: `id` does not compete.
    /// - `NotHolding`: `id` competes and holds no number.
    pub fn leave(&mut self, id: u64) -> Result<u32, Refusal> {
        self.pool.leave(id)
    }

    /// Puts a value into the slot of the number that `id` holds. No other slot changes.
    ///
    /// # Errors
    ///
    /// An error changes nothing. The first that applies is returned:
    ///
    /// - `NotCompeting`: `id` does not compete.
    /// - `NotHolding`: `id` competes and holds no number.
    pub fn put(&mut self, id: u64, value: T) -> Result<(), Refusal> {
        let number = self.pool.number_of(id)?;
        self.values[number as usize - 1] = value;
        Ok(())
    }

    /// Returns the value in the slot of the number that `id` holds.
    ///
    /// # Errors
    ///
    /// The first that applies is returned:
    ///
    /// - `NotCompeting`: `id` does not compete.
    /// - `NotHolding`: `id` competes and holds no number.
    pub fn get(&self, id: u64) -> Result<&T, Refusal> {
        let number = self.pool.number_of(id)?;
        Ok(&self.values[number as usize - 1])
    }
}

impl<T: Copy, A: Allocator> Slots<T, A> {
    /// Gives the pool more numbers, as `Pool::widen` does. Each new slot holds `value`, and each other slot keeps its
    /// value.
    ///
    /// This makes at most one access and allocates nothing.
    ///
    /// # Errors
    ///
    /// `OutOfRange`: `size` is not above the present size, or is above the most. Nothing has changed.
    pub fn widen(&mut self, size: u64, value: T) -> Result<(), Refusal> {
        self.pool.widen(size)?;
        let more = size as usize - self.values.len();
        fill(&mut self.values, more, value);
        Ok(())
    }
}
