//! A lock for the moments in which tickets are handed out and come back. No stay takes it.

#[cfg(not(feature = "std"))]
pub(crate) use spinning::Lock;
#[cfg(feature = "std")]
pub(crate) use waiting::{Lock, Process};

#[cfg(feature = "std")]
mod waiting {
    use std::sync::{Mutex, MutexGuard, PoisonError, TryLockError};

    /// The process in which a lock was made.
    #[derive(Debug, Clone, Copy, PartialEq, Eq)]
    pub(crate) struct Process(u32);

    impl Process {
        #[cfg(unix)]
        pub(crate) fn this() -> Process {
            Process(std::process::id())
        }

        /// No process of another system is forked.
        #[cfg(not(unix))]
        pub(crate) fn this() -> Process {
            Process(0)
        }

        /// The lock. None in a child of the process, if some thread of the parent had it at the fork: nobody ever opens it there.
        pub(crate) fn lock<'a, T>(self, mutex: &'a Mutex<T>) -> Option<MutexGuard<'a, T>> {
            match mutex.try_lock() {
                Ok(guard) => Some(guard),
                // No state under these locks is broken by a panic.
                Err(TryLockError::Poisoned(poisoned)) => Some(poisoned.into_inner()),
                Err(TryLockError::WouldBlock) if self != Process::this() => None,
                Err(TryLockError::WouldBlock) => {
                    Some(mutex.lock().unwrap_or_else(PoisonError::into_inner))
                }
            }
        }
    }

    /// A value that one thread uses at a time. A forked child does not hang on it.
    pub(crate) struct Lock<T> {
        process: Process,
        value: Mutex<T>,
    }

    impl<T> Lock<T> {
        pub(crate) fn new(value: T) -> Lock<T> {
            Lock {
                process: Process::this(),
                value: Mutex::new(value),
            }
        }

        /// Calls with the value. None in a forked child, if some thread of the parent was using the value at the fork.
        pub(crate) fn with<R>(&self, call: impl FnOnce(&mut T) -> R) -> Option<R> {
            let mut value = self.process.lock(&self.value)?;
            Some(call(&mut value))
        }
    }
}

#[cfg(not(feature = "std"))]
#[allow(unsafe_code)]
mod spinning {
    use core::cell::UnsafeCell;
    use core::sync::atomic::{AtomicBool, Ordering::Acquire, Ordering::Release};

    /// A value that one thread uses at a time. The others spin for that moment.
    pub(crate) struct Lock<T> {
        is_taken: AtomicBool,
        value: UnsafeCell<T>,
    }

    // SAFETY: who has set the flag uses the value alone, until it clears the flag.
    unsafe impl<T: Send> Sync for Lock<T> {}

    /// Clears the flag, in a panic too.
    struct Opens<'a>(&'a AtomicBool);

    impl Drop for Opens<'_> {
        fn drop(&mut self) {
            self.0.store(false, Release);
        }
    }

    impl<T> Lock<T> {
        pub(crate) fn new(value: T) -> Lock<T> {
            Lock {
                is_taken: AtomicBool::new(false),
                value: UnsafeCell::new(value),
            }
        }

        /// Calls with the value.
        pub(crate) fn with<R>(&self, call: impl FnOnce(&mut T) -> R) -> Option<R> {
            while self.is_taken.swap(true, Acquire) {
                core::hint::spin_loop();
            }
            let _opens = Opens(&self.is_taken);
            // SAFETY: this call has set the flag, and it is cleared only after the last use of the value.
            Some(call(unsafe { &mut *self.value.get() }))
        }
    }
}
