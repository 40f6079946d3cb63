//! A value with a cache line of its own.

use std_alloc::{boxed::Box, vec::Vec};

/// Two of them share no cache line, nor the pair of lines that processors fetch together.
#[repr(align(128))]
pub(crate) struct Padded<T>(pub T);

/// As many padded values as there are places. None if there is no memory for them.
pub(crate) fn padded<T>(count: usize, make: impl FnMut(usize) -> T) -> Option<Box<[Padded<T>]>> {
    let mut room = Vec::new();
    room.try_reserve_exact(count).ok()?;
    Some(filled(room, count, make))
}

/// A function of its own, since a value that has no room on the heap may have none on the stack.
#[inline(never)]
fn filled<T>(
    mut room: Vec<Padded<T>>,
    count: usize,
    make: impl FnMut(usize) -> T,
) -> Box<[Padded<T>]> {
    room.extend((0..count).map(make).map(Padded));
    room.into_boxed_slice()
}
