// Erased by bindings/rust/erase from crates/model_steps/src/memory.rt, sha256 22c3ce0e6e8b921f4f0aca85e95103bf21a7c5a7b9192134dcf489e8a05f3b20.
//! Registers.

use crate::kit::alloc::Allocator;
use crate::kit::Clone;
use crate::kit::Vec;
use crate::proved::model_steps::access::{Access, Answer};
use crate::proved::model_steps::refusal::NoMemory;

/// A memory of registers, which participants reach by one atomic access at a time.
pub trait StepMemory: Sized {
    /// What names a register.
    type Reg: Copy;

    /// What a register holds.
    type Value;

    /// Makes one access, and returns its answer: what the register held before it.
    ///
    /// # Errors
    ///
    /// `NoMemory`: the access needed memory and the allocation failed. The memory is unchanged.
    fn access(
        &mut self,
        a: Access<Self::Reg, Self::Value>,
    ) -> Result<Answer<Self::Value>, NoMemory>;

    /// Lends the value of a register, for a `Read` that copies nothing.
    ///
    /// Returns `None` if the memory lends no value of this register. `access` then answers the `Read`.
    fn look(&self, _register: &Self::Reg) -> Option<&Self::Value> {
        None
    }
}

/// Registers of values and registers of bits, each numbered from 0. All are made by `new`, so no access fails.
///
/// A read of a number that is out of range returns the first value, or a clear bit. A write there changes nothing.
pub struct Memory<V, A: Allocator> {
    first: V,
    values: Vec<V, A>,
    bits: Vec<bool, A>,
}

/// A vector of `n` copies of `x`.
fn filled<T: Copy, A: Allocator>(alloc: A, x: T, n: usize) -> Result<Vec<T, A>, NoMemory> {
    let Ok(mut xs) = Vec::with_capacity(alloc, n) else {
        return Err(NoMemory);
    };
    for _i in 0..n {
        xs.push_reserved(x);
    }
    Ok(xs)
}

impl<V: Copy, A: Allocator + Clone> Memory<V, A> {
    /// Makes `values` registers that hold `first`, and `bits` bits that are clear.
    ///
    /// # Errors
    ///
    /// `NoMemory`: an allocation failed.
    pub fn new(alloc: A, first: V, values: usize, bits: usize) -> Result<Self, NoMemory> {
        let Ok(other) = alloc.clone() else {
            return Err(NoMemory);
        };
        Ok(Memory {
            first,
            values: filled(alloc, first, values)?,
            bits: filled(other, false, bits)?,
        })
    }
}

impl<V: Copy, A: Allocator> Memory<V, A> {
    /// Returns the value of a register. This is no access: it is for observers of a world.
    pub fn value(&self, r: usize) -> V {
        if r < self.values.len() {
            self.values[r]
        } else {
            self.first
        }
    }
}

impl<V: Copy, A: Allocator> StepMemory for Memory<V, A> {
    type Reg = usize;

    type Value = V;

    fn access(&mut self, a: Access<usize, V>) -> Result<Answer<V>, NoMemory> {
        Ok(match a {
            Access::Read(r) => Answer::Value(self.value(r)),
            Access::Write(r, v) => {
                if r < self.values.len() {
                    self.values[r] = v;
                }
                Answer::Done
            }
            Access::TestAndSet(r) => {
                if r < self.bits.len() {
                    let was = self.bits[r];
                    self.bits[r] = true;
                    Answer::WasSet(was)
                } else {
                    Answer::WasSet(false)
                }
            }
            Access::Clear(r) => {
                if r < self.bits.len() {
                    self.bits[r] = false;
                }
                Answer::Done
            }
            Access::Nothing => Answer::Done,
        })
    }

    fn look(&self, register: &usize) -> Option<&V> {
        self.values.get(*register)
    }
}
