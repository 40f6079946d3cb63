//! The calls of the C library. Each declaration is one of `bindings/c/beglushan.h`.

use std::num::NonZeroUsize;
use std::ptr;

/// A handle of the library, which answers for a null pointer and for a handle of zero bytes.
#[repr(transparent)]
struct Handle(*mut u8);

impl Handle {
    /// The handle that a call makes. None if the call returns false.
    fn made(make: impl FnOnce(*mut Handle) -> bool) -> Option<Handle> {
        let mut handle = Handle(ptr::null_mut());
        make(&mut handle).then_some(handle)
    }
}

/// A number of the library; 0 is none.
fn number(told: u64) -> Option<NonZeroUsize> {
    NonZeroUsize::new(told as usize)
}

#[link(name = "beglushan", kind = "static")]
unsafe extern "C" {
    fn beglushan_pool_new(pool: *mut Handle, size: u64) -> bool;
    fn beglushan_pool_join(pool: *mut Handle, other: *mut Handle) -> bool;
    fn beglushan_pool_acquire(pool: *mut Handle) -> u64;
    fn beglushan_pool_acquire_near(pool: *mut Handle, hint: u64) -> u64;
    fn beglushan_pool_release(pool: *mut Handle) -> u64;
    fn beglushan_pool_free(pool: *mut Handle);
    fn beglushan_line_new(line: *mut Handle, numbers: u64) -> bool;
    fn beglushan_line_join(line: *mut Handle, other: *mut Handle) -> bool;
    fn beglushan_line_acquire(line: *mut Handle) -> u64;
    fn beglushan_line_release(line: *mut Handle) -> u64;
    fn beglushan_line_free(line: *mut Handle);
    fn beglushan_grid_new(grid: *mut Handle, most: u64) -> bool;
    fn beglushan_grid_join(grid: *mut Handle, other: *mut Handle) -> bool;
    fn beglushan_grid_enter(grid: *mut Handle) -> u64;
    fn beglushan_grid_free(grid: *mut Handle);
    fn beglushan_names_new(names: *mut Handle, most: u64) -> bool;
    fn beglushan_names_join(names: *mut Handle, other: *mut Handle, identity: u64) -> bool;
    fn beglushan_names_name(names: *mut Handle) -> u64;
    fn beglushan_names_free(names: *mut Handle);
}

/// Declares a kind of handle, with the calls that make, join and end it. It may go to another thread: one call at a time uses it,
/// which `&mut` sees to.
macro_rules! handles {
    ($($name:ident: $first:ident, $join:ident, $free:ident;)*) => {$(
        pub(crate) struct $name(Handle);

        // SAFETY: as the header says.
        unsafe impl Send for $name {}

        impl $name {
            pub(crate) fn first(most: usize) -> Option<$name> {
                // SAFETY: the handle is of zero bytes.
                Handle::made(|made| unsafe { $first(made, most as u64) }).map($name)
            }

            pub(crate) fn join(&mut self) -> Option<$name> {
                // SAFETY: this handle was made, and the other is of zero bytes.
                Handle::made(|other| unsafe { $join(&mut self.0, other) }).map($name)
            }
        }

        impl Drop for $name {
            fn drop(&mut self) {
                // SAFETY: this is the last call with the handle.
                unsafe { $free(&mut self.0) }
            }
        }
    )*};
}

handles! {
    Member: beglushan_pool_new, beglushan_pool_join, beglushan_pool_free;
    LineMember: beglushan_line_new, beglushan_line_join, beglushan_line_free;
    GridMember: beglushan_grid_new, beglushan_grid_join, beglushan_grid_free;
}

impl Member {
    pub(crate) fn acquire(&mut self) -> Option<NonZeroUsize> {
        // SAFETY: the handle was made.
        number(unsafe { beglushan_pool_acquire(&mut self.0) })
    }

    pub(crate) fn acquire_near(&mut self, hint: usize) -> Option<NonZeroUsize> {
        // SAFETY: the handle was made.
        number(unsafe { beglushan_pool_acquire_near(&mut self.0, hint as u64) })
    }

    pub(crate) fn release(&mut self) -> Option<NonZeroUsize> {
        // SAFETY: the handle was made.
        number(unsafe { beglushan_pool_release(&mut self.0) })
    }
}

impl LineMember {
    pub(crate) fn acquire(&mut self) -> Option<NonZeroUsize> {
        // SAFETY: the handle was made.
        number(unsafe { beglushan_line_acquire(&mut self.0) })
    }

    pub(crate) fn release(&mut self) -> Option<NonZeroUsize> {
        // SAFETY: the handle was made.
        number(unsafe { beglushan_line_release(&mut self.0) })
    }
}

impl GridMember {
    pub(crate) fn enter(&mut self) -> usize {
        // SAFETY: the handle was made.
        (unsafe { beglushan_grid_enter(&mut self.0) }) as usize
    }
}

/// The handle that deals the seats of names.
pub(crate) struct NamesDealer(Handle);

/// A handle with a seat of names.
pub(crate) struct NamesMember(Handle);

// SAFETY: as the header says.
unsafe impl Send for NamesMember {}

impl NamesDealer {
    pub(crate) fn new(most: usize) -> Option<NamesDealer> {
        // SAFETY: the handle is of zero bytes.
        let new = |made| unsafe { beglushan_names_new(made, most as u64) };
        Handle::made(new).map(NamesDealer)
    }

    pub(crate) fn join(&mut self, identity: u64) -> Option<NamesMember> {
        // SAFETY: this handle was made, and the other is of zero bytes.
        let join = |other| unsafe { beglushan_names_join(&mut self.0, other, identity) };
        Handle::made(join).map(NamesMember)
    }
}

impl NamesMember {
    pub(crate) fn name(&mut self) -> usize {
        // SAFETY: the handle was made.
        (unsafe { beglushan_names_name(&mut self.0) }) as usize
    }
}

impl Drop for NamesDealer {
    fn drop(&mut self) {
        // SAFETY: this is the last call with the handle.
        unsafe { beglushan_names_free(&mut self.0) }
    }
}

impl Drop for NamesMember {
    fn drop(&mut self) {
        // SAFETY: this is the last call with the handle.
        unsafe { beglushan_names_free(&mut self.0) }
    }
}
