//! A box that may fail to be made, in the place of the kit's `Box`.

use super::alloc::{AllocFailed, Allocator, Global};
use std::ops::{Deref, DerefMut};

/// A value on the heap.
pub struct Box<T, A: Allocator = Global> {
    // Stable Rust makes no box by a call that may fail, and turns a list of one into this one without an allocation.
    item: std::boxed::Box<[T; 1]>,
    _alloc: A,
}

impl<T, A: Allocator> Box<T, A> {
    /// `new`: puts a value on the heap, or gives it back.
    pub fn new(alloc: A, value: T) -> Result<Self, AllocFailed<T>> {
        let mut items = Vec::new();
        if items.try_reserve_exact(1).is_err() {
            return Err(AllocFailed { value });
        }
        items.push(value);
        match std::boxed::Box::<[T; 1]>::try_from(items) {
            Ok(item) => Ok(Box {
                item,
                _alloc: alloc,
            }),
            Err(_) => unreachable!("a list of one"),
        }
    }
}

impl<T, A: Allocator> Deref for Box<T, A> {
    type Target = T;

    fn deref(&self) -> &T {
        &self.item[0]
    }
}

impl<T, A: Allocator> DerefMut for Box<T, A> {
    fn deref_mut(&mut self) -> &mut T {
        &mut self.item[0]
    }
}
