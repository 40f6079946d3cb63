//! Maps that ask for memory by calls which may fail, in the place of the kit's `std::collections`.

use super::alloc::{AllocError, Allocator, Global};
use std::collections::hash_map::RandomState;
use std::hash::{BuildHasher, Hash};
use std::marker::PhantomData;

/// A map from keys to values.
pub struct HashMap<K, V, S = RandomState, A: Allocator = Global> {
    entries: std::collections::HashMap<K, V, S>,
    alloc: PhantomData<A>,
}

impl<K: Eq + Hash, V, S: BuildHasher + Default, A: Allocator> HashMap<K, V, S, A> {
    /// `new`: an empty map. It allocates nothing.
    pub fn new(_alloc: A) -> HashMap<K, V, S, A> {
        HashMap {
            entries: std::collections::HashMap::default(),
            alloc: PhantomData,
        }
    }

    /// `with_capacity`: an empty map with room for so many.
    ///
    /// # Errors
    ///
    /// `AllocError` where an allocation failed.
    pub fn with_capacity(alloc: A, count: usize) -> Result<HashMap<K, V, S, A>, AllocError> {
        let mut made = HashMap::new(alloc);
        made.entries.try_reserve(count)?;
        Ok(made)
    }

    /// `get`: the value of a key.
    pub fn get(&self, key: &K) -> Option<&V> {
        self.entries.get(key)
    }

    /// `get_mut`: the value of a key, to be changed.
    pub fn get_mut(&mut self, key: &K) -> Option<&mut V> {
        self.entries.get_mut(key)
    }

    /// `contains_key`: whether a key has a value.
    pub fn contains_key(&self, key: &K) -> bool {
        self.entries.contains_key(key)
    }

    /// `insert`: gives a key a value, and returns the one that it had.
    ///
    /// # Errors
    ///
    /// `AllocError` where an allocation failed.
    pub fn insert(&mut self, key: K, value: V) -> Result<Option<V>, AllocError> {
        self.entries.try_reserve(1)?;
        Ok(self.entries.insert(key, value))
    }

    /// `remove`: takes the value of a key.
    pub fn remove(&mut self, key: &K) -> Option<V> {
        self.entries.remove(key)
    }
}
