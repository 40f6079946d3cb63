//! Lists that ask for memory by calls which may fail, in the place of the kit's `std::vec`.

use super::alloc::{AllocError, AllocFailed, Allocator, Clone, Global};
use std::ops::{Deref, DerefMut};

/// A list, with the allocator that it was made with.
pub struct Vec<T, A: Allocator = Global> {
    items: std::vec::Vec<T>,
    alloc: A,
}

impl<T, A: Allocator> Vec<T, A> {
    /// `new`: an empty list. It allocates nothing.
    pub fn new(alloc: A) -> Self {
        let items = std::vec::Vec::new();
        Vec { items, alloc }
    }

    /// `with_capacity`: an empty list with room for so many.
    ///
    /// # Errors
    ///
    /// `AllocError` where an allocation failed, as in each call below that has one.
    pub fn with_capacity(alloc: A, count: usize) -> Result<Self, AllocError> {
        let mut items = std::vec::Vec::new();
        items.try_reserve_exact(count)?;
        Ok(Vec { items, alloc })
    }

    /// `from_elem`: so many copies of a value.
    pub fn from_elem(alloc: A, value: T, count: usize) -> Result<Self, AllocError>
    where
        T: Copy,
    {
        let mut made = Vec::with_capacity(alloc, count)?;
        made.items.resize(count, value);
        Ok(made)
    }

    /// `reserve`: room for so many more.
    pub fn reserve(&mut self, more: usize) -> Result<(), AllocError> {
        Ok(self.items.try_reserve(more)?)
    }

    /// `push`: appends a value, or gives it back.
    pub fn push(&mut self, value: T) -> Result<(), AllocFailed<T>> {
        if self.items.len() == self.items.capacity() && self.items.try_reserve(1).is_err() {
            return Err(AllocFailed { value });
        }
        self.items.push(value);
        Ok(())
    }

    /// `push_reserved`: appends a value for which there is room.
    pub fn push_reserved(&mut self, value: T) {
        debug_assert!(self.items.len() < self.items.capacity());
        self.items.push(value);
    }

    /// `extend_from_slice`: appends copies.
    pub fn extend_from_slice(&mut self, values: &[T]) -> Result<(), AllocError>
    where
        T: Copy,
    {
        self.items.try_reserve(values.len())?;
        self.items.extend_from_slice(values);
        Ok(())
    }

    /// `from_slice`: a list of copies.
    pub fn from_slice(alloc: A, values: &[T]) -> Result<Self, AllocError>
    where
        T: Copy,
    {
        let mut made = Vec::with_capacity(alloc, values.len())?;
        made.items.extend_from_slice(values);
        Ok(made)
    }

    /// `from_array`: a list of these values.
    pub fn from_array<const N: usize>(alloc: A, values: [T; N]) -> Result<Self, AllocError> {
        let mut made = Vec::with_capacity(alloc, N)?;
        made.items.extend(values);
        Ok(made)
    }

    /// `append`: moves all values of another list to the end.
    pub fn append<B: Allocator>(&mut self, other: Vec<T, B>) -> Result<(), AllocError> {
        self.items.try_reserve(other.len())?;
        self.items.extend(other);
        Ok(())
    }

    /// `capacity`: how many it has room for.
    pub fn capacity(&self) -> usize {
        self.items.capacity()
    }

    /// `resize`: so many values, of which the new ones are copies.
    pub fn resize(&mut self, count: usize, value: T) -> Result<(), AllocError>
    where
        T: Copy,
    {
        self.items
            .try_reserve(count.saturating_sub(self.items.len()))?;
        self.items.resize(count, value);
        Ok(())
    }

    /// `insert`: puts a value at a place, or gives it back.
    pub fn insert(&mut self, place: usize, value: T) -> Result<(), AllocFailed<T>> {
        if self.items.try_reserve(1).is_err() {
            return Err(AllocFailed { value });
        }
        self.items.insert(place, value);
        Ok(())
    }

    /// `drain`: takes the values of a range out.
    pub fn drain(&mut self, range: impl std::ops::RangeBounds<usize>) {
        self.items.drain(range);
    }

    /// `shrink_to_fit`: gives room back that is not used.
    pub fn shrink_to_fit(&mut self) {
        self.items.shrink_to_fit();
    }

    /// `pop`: takes the last value.
    pub fn pop(&mut self) -> Option<T> {
        self.items.pop()
    }

    /// `clear`: removes all.
    pub fn clear(&mut self) {
        self.items.clear();
    }

    /// `truncate`: keeps so many of the first.
    pub fn truncate(&mut self, count: usize) {
        self.items.truncate(count);
    }

    /// `retain`: keeps those of which this is true, in their order.
    pub fn retain(&mut self, keeps: impl FnMut(&T) -> bool) {
        self.items.retain(keeps);
    }

    /// `as_slice`: all values.
    pub fn as_slice(&self) -> &[T] {
        &self.items
    }

    /// `as_mut_slice`: all values, to be changed.
    pub fn as_mut_slice(&mut self) -> &mut [T] {
        &mut self.items
    }
}

impl<T, A: Allocator> Deref for Vec<T, A> {
    type Target = [T];

    #[inline]
    fn deref(&self) -> &[T] {
        &self.items
    }
}

impl<T, A: Allocator> DerefMut for Vec<T, A> {
    #[inline]
    fn deref_mut(&mut self) -> &mut [T] {
        &mut self.items
    }
}

impl<T, A: Allocator + Clone> Vec<T, A> {
    /// `split_off`: moves the values from a place on to a list of their own.
    pub fn split_off(&mut self, at: usize) -> Result<Self, AllocError> {
        let mut made = Vec::with_capacity(self.alloc.clone()?, self.items.len() - at)?;
        made.items.extend(self.items.drain(at..));
        Ok(made)
    }
}

impl<T: Copy, A: Allocator + Clone> Clone for Vec<T, A> {
    fn clone(&self) -> Result<Self, AllocError> {
        let mut made = Vec::with_capacity(self.alloc.clone()?, self.items.len())?;
        made.items.extend_from_slice(&self.items);
        Ok(made)
    }
}

impl<T, A: Allocator> IntoIterator for Vec<T, A> {
    type Item = T;
    type IntoIter = std::vec::IntoIter<T>;

    fn into_iter(self) -> Self::IntoIter {
        self.items.into_iter()
    }
}

impl<'a, T, A: Allocator> IntoIterator for &'a Vec<T, A> {
    type Item = &'a T;
    type IntoIter = std::slice::Iter<'a, T>;

    fn into_iter(self) -> Self::IntoIter {
        self.items.iter()
    }
}

impl<'a, T, A: Allocator> IntoIterator for &'a mut Vec<T, A> {
    type Item = &'a mut T;
    type IntoIter = std::slice::IterMut<'a, T>;

    fn into_iter(self) -> Self::IntoIter {
        self.items.iter_mut()
    }
}

impl<T: PartialEq, A: Allocator> PartialEq for Vec<T, A> {
    fn eq(&self, other: &Vec<T, A>) -> bool {
        self.items == other.items
    }
}

/// Slices that are copied.
pub trait ToVec<T> {
    /// `to_vec`: a list of copies.
    ///
    /// # Errors
    ///
    /// `AllocError` where an allocation failed.
    fn try_to_vec<A: Allocator>(&self, alloc: A) -> Result<Vec<T, A>, AllocError>;
}

impl<T: Copy> ToVec<T> for [T] {
    fn try_to_vec<A: Allocator>(&self, alloc: A) -> Result<Vec<T, A>, AllocError> {
        Vec::from_slice(alloc, self)
    }
}

impl<T: std::fmt::Debug, A: Allocator> std::fmt::Debug for Vec<T, A> {
    fn fmt(&self, f: &mut std::fmt::Formatter<'_>) -> std::fmt::Result {
        self.items.fmt(f)
    }
}
