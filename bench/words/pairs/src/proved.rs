//! The proved pool through its C functions.

use std::ptr;
use std::sync::Mutex;

#[repr(C)]
pub struct Handle {
    at: *mut u8,
}

// SAFETY: the library proves that a handle may go to another thread; each is used by one call at a time.
unsafe impl Send for Handle {}

unsafe extern "C" {
    fn word_pool_new(pool: *mut Handle, size: u64) -> bool;
    fn word_pool_join(pool: *mut Handle, other: *mut Handle) -> bool;
    fn word_pool_acquire_near(pool: *mut Handle, hint: u64) -> u64;
    fn word_pool_release(pool: *mut Handle) -> u64;
    fn word_pool_free(pool: *mut Handle);
}

impl Handle {
    fn none() -> Handle {
        Handle { at: ptr::null_mut() }
    }

    pub fn acquire(&mut self, hint: u64) -> u64 {
        // SAFETY: a handle outside `none` holds a pool.
        unsafe { word_pool_acquire_near(self, hint) }
    }

    pub fn release(&mut self) -> u64 {
        // SAFETY: as above.
        unsafe { word_pool_release(self) }
    }
}

impl Drop for Handle {
    fn drop(&mut self) {
        // SAFETY: as above.
        unsafe { word_pool_free(self) }
    }
}

/// What further handles are made of.
pub struct ProvedPool(Mutex<Handle>);

impl ProvedPool {
    pub fn new(numbers: u64) -> ProvedPool {
        let mut first = Handle::none();
        // SAFETY: the handle holds none yet.
        assert!(unsafe { word_pool_new(&mut first, numbers) });
        ProvedPool(Mutex::new(first))
    }

    pub fn handle(&self) -> Handle {
        let mut other = Handle::none();
        // SAFETY: the first holds a pool, the other none yet, and the lock lets one call at a time in.
        assert!(unsafe { word_pool_join(&mut *self.0.lock().unwrap(), &mut other) });
        other
    }
}
