//! The number that a thread had last of a pool.

use crate::thread::index_if_any;
use std::cell::Cell;

/// How many pools a thread remembers a number of, if their keys fall on different cells.
const CELLS: usize = 16;

/// A pool's key and the number that the pool gave the thread last.
type Last = (usize, usize);

thread_local! {
    /// The last numbers, each in the cell on which its pool's key falls. It has no destructor, which makes it quick.
    static LAST: [Cell<Last>; CELLS] = const { [const { Cell::new((0, 0)) }; CELLS] };
}

/// The number that this thread had last of the pool. If the thread remembers none, it is the thread's own number, if it has one: so
/// threads begin at different words.
#[inline(always)]
pub(crate) fn hint(key: usize) -> u64 {
    let (found, number) = LAST.with(|last| last[key % CELLS].get());
    if found == key {
        return number as u64;
    }
    first_hint()
}

#[cold]
#[inline(never)]
fn first_hint() -> u64 {
    index_if_any().map_or(0, |index| index as u64 + 1)
}

/// Remembers a number of the pool.
#[inline(always)]
pub(crate) fn remember(key: usize, number: usize) {
    LAST.with(|last| last[key % CELLS].set((key, number)));
}
