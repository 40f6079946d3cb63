//! An array with an element for each number, of which a holder has its own.
#![allow(unsafe_code)]

use crate::error::Error;
use crate::numbers::{Holder, Numbers};
use crate::padded::{padded, Padded};
use core::cell::UnsafeCell;
use core::fmt;
use std_alloc::{boxed::Box, vec::Vec};

/// One element for each number of a [`Pool`](crate::Pool) or of [`Workers`](crate::Workers). A holder has its element alone, as
/// `&mut T`, with no lock and no atomic on the way.
///
/// Each element has a cache line of its own. A holder finds it as the last one left it, in a panic too: nothing is poisoned.
///
/// ```
/// use beglushan::{Pool, Slots};
///
/// let pool = Pool::new(4)?;
/// let mut arenas = Slots::new(&pool, |_| Vec::new());
/// std::thread::scope(|threads| {
///     for worker in 0..4 {
///         let (pool, arenas) = (&pool, &arenas);
///         threads.spawn(move || {
///             let mut slot = pool.acquire().expect("four numbers for four threads");
///             arenas.get(&mut slot).push(worker);
///         });
///     }
/// });
/// assert_eq!(arenas.iter_mut().map(|arena| arena.len()).sum::<usize>(), 4);
/// # Ok::<(), beglushan::Error>(())
/// ```
///
/// The element is the slot's for as long as it is used, and the array goes to other threads only where its elements may:
///
/// ```compile_fail,E0505
/// # use beglushan::{Pool, Slots};
/// # let pool = Pool::new(1).unwrap();
/// # let arenas = Slots::new(&pool, |_| 0);
/// let mut slot = pool.acquire().unwrap();
/// let mine = arenas.get(&mut slot);
/// drop(slot);
/// *mine = 1;
/// ```
/// ```compile_fail,E0277
/// fn shares<T: Sync>() {}
/// shares::<beglushan::Slots<std::rc::Rc<u64>>>();
/// ```
pub struct Slots<T> {
    key: usize,
    elements: Box<[Padded<UnsafeCell<T>>]>,
}

// SAFETY: an element is reached through `&mut` of the holder of its number, which one thread has at a time, or through
// `&mut self`. So sharing the array lends an element to one thread after another, which is what `Send` allows.
unsafe impl<T: Send> Sync for Slots<T> {}

impl<T> Slots<T> {
    /// An array for the numbers of a pool or of workers. The element of each number is made from its index.
    ///
    /// # Panics
    ///
    /// If an allocation failed, or if the elements are larger than any allocation can be. [`try_new`](Slots::try_new) returns
    /// an error then.
    pub fn new(numbers: &impl Numbers, make: impl FnMut(usize) -> T) -> Slots<T> {
        Slots::try_new(numbers, make).expect("memory for an element of each number")
    }

    /// The same, with an error in place of a panic.
    ///
    /// # Errors
    ///
    /// [`Error::NoMemory`]: an allocation failed, or the elements are larger than any allocation can be.
    pub fn try_new(
        numbers: &impl Numbers,
        mut make: impl FnMut(usize) -> T,
    ) -> Result<Slots<T>, Error> {
        let elements = padded(numbers.count(), |index| UnsafeCell::new(make(index)));
        Ok(Slots {
            key: numbers.key(),
            elements: elements.ok_or(Error::NoMemory)?,
        })
    }

    /// How many elements there are: as many as there are numbers.
    #[must_use]
    #[allow(clippy::len_without_is_empty)] // no pool has no numbers
    pub fn len(&self) -> usize {
        self.elements.len()
    }

    /// The element of a holder.
    ///
    /// # Panics
    ///
    /// If the holder's number is of another pool than the array was made for.
    #[inline]
    pub fn get<'a>(&'a self, holder: &'a mut impl Holder) -> &'a mut T {
        let element = self.element(holder);
        // SAFETY: the holder is borrowed alone for as long as the element is, and `element` says the rest.
        unsafe { &mut *element }
    }

    /// The holder's index, from 0, and its element.
    ///
    /// # Panics
    ///
    /// Those of [`get`](Slots::get).
    ///
    /// ```
    /// use beglushan::{Pool, Slots};
    ///
    /// let pool = Pool::new(4)?;
    /// let names = Slots::new(&pool, |_| String::new());
    /// let mut slot = pool.acquire_near(3).expect("all are free");
    /// let (index, name) = names.get_indexed(&mut slot);
    /// name.push_str(&format!("worker {index}"));
    /// assert_eq!(names.get(&mut slot), "worker 2");
    /// # Ok::<(), beglushan::Error>(())
    /// ```
    #[inline]
    pub fn get_indexed<'a>(&'a self, holder: &'a mut impl Holder) -> (usize, &'a mut T) {
        (holder.place(), self.get(holder))
    }

    /// The element of a holder here and the one in another array for the same numbers.
    ///
    /// # Panics
    ///
    /// If the holder's number is of another pool than either array was made for, or if both are one array.
    ///
    /// ```
    /// use beglushan::{Pool, Slots};
    ///
    /// let pool = Pool::new(4)?;
    /// let (buffers, counts) = (Slots::new(&pool, |_| Vec::new()), Slots::new(&pool, |_| 0));
    /// let mut slot = pool.acquire().expect("all are free");
    /// let (buffer, count) = buffers.get_both(&counts, &mut slot);
    /// buffer.push(7);
    /// *count += 1;
    /// # Ok::<(), beglushan::Error>(())
    /// ```
    #[inline]
    pub fn get_both<'a, U>(
        &'a self,
        other: &'a Slots<U>,
        holder: &'a mut impl Holder,
    ) -> (&'a mut T, &'a mut U) {
        let (mine, theirs) = (self.element(holder), other.element(holder));
        assert!(
            !core::ptr::addr_eq(mine, theirs),
            "one array in place of two"
        );
        // SAFETY: as in `get`, and the two elements are of two arrays.
        unsafe { (&mut *mine, &mut *theirs) }
    }

    /// The place of a holder's element. Nobody else is lent it while the holder is borrowed: two holders of one pool have two numbers
    /// while both live. It is proved that a number which is held is nobody else's; a slot that is forgotten keeps its own. A holder
    /// shows one pool all its life (`Holder` and `Lent` are sealed), whose key is no other pool's. The last holder's writes come
    /// before this: giving its number back stored 0 in the number's word, which the taking swapped, both sequentially consistent.
    #[inline(always)]
    fn element(&self, holder: &impl Holder) -> *mut T {
        assert_eq!(holder.key(), self.key, "a slot of another pool");
        self.elements[holder.place()].0.get()
    }

    /// The element of the number `index + 1`, with nobody holding one. None if there is no such number.
    pub fn get_mut(&mut self, index: usize) -> Option<&mut T> {
        self.elements
            .get_mut(index)
            .map(|element| element.0.get_mut())
    }

    /// All elements, by rising number, with nobody holding one.
    pub fn iter_mut(&mut self) -> impl DoubleEndedIterator<Item = &mut T> + ExactSizeIterator {
        self.elements.iter_mut().map(|element| element.0.get_mut())
    }

    /// The elements, by rising number.
    #[must_use]
    pub fn into_inner(self) -> Vec<T> {
        self.elements
            .into_vec()
            .into_iter()
            .map(|element| element.0.into_inner())
            .collect()
    }
}

impl<T> fmt::Debug for Slots<T> {
    fn fmt(&self, f: &mut fmt::Formatter<'_>) -> fmt::Result {
        f.debug_struct("Slots")
            .field("len", &self.elements.len())
            .finish_non_exhaustive()
    }
}
