//! What calls answer where there is no memory. It stands alone, since it takes all of the memory that its process may have.

#![cfg(all(
    target_os = "linux",
    feature = "std",
    target_pointer_width = "64",
    not(miri)
))]

use beglushan::{Error, Names, PerThread, Pool, Slots, Workers};
use std::alloc::{GlobalAlloc, Layout, System};
use std::cell::Cell;
use std::ptr;
use std::time::{Duration, Instant};

/// C's `struct rlimit`.
#[repr(C)]
struct Limit {
    now: u64,
    most: u64,
}

/// The limit of a process's address space.
const ADDRESS_SPACE: i32 = 9;

unsafe extern "C" {
    fn getrlimit(what: i32, limit: *mut Limit) -> i32;
    fn setrlimit(what: i32, limit: *const Limit) -> i32;
}

/// All memory that the process may have, until this is dropped.
struct Hoard {
    last: *mut Hoarded,
    before: Limit,
}

/// A block of it, which says where the block before it is.
struct Hoarded {
    before: *mut Hoarded,
    layout: Layout,
}

impl Hoard {
    fn all() -> Hoard {
        let mut before = Limit { now: 0, most: 0 };
        // SAFETY: both are given a limit of C's layout.
        unsafe {
            assert_eq!(getrlimit(ADDRESS_SPACE, &raw mut before), 0);
            let limit = Limit {
                now: 1 << 20,
                most: before.most,
            };
            assert_eq!(setrlimit(ADDRESS_SPACE, &raw const limit), 0);
        }
        let mut last = ptr::null_mut();
        let mut size = 1 << 20;
        while size >= size_of::<Hoarded>() {
            let layout = Layout::from_size_align(size, align_of::<Hoarded>()).expect("a layout");
            // SAFETY: the layout is not empty, and has room for what is written.
            unsafe {
                let block = System.alloc(layout).cast::<Hoarded>();
                if block.is_null() {
                    size /= 2;
                } else {
                    block.write(Hoarded {
                        before: last,
                        layout,
                    });
                    last = block;
                }
            }
        }
        Hoard { last, before }
    }
}

impl Drop for Hoard {
    fn drop(&mut self) {
        // SAFETY: each block was allocated by its layout, and nobody has it.
        unsafe {
            setrlimit(ADDRESS_SPACE, &raw const self.before);
            while !self.last.is_null() {
                let block = self.last.read();
                System.dealloc(self.last.cast(), block.layout);
                self.last = block.before;
            }
        }
    }
}

/// Each call that wants memory says at once that there is none. Those that want none do what they do.
#[test]
fn told_at_once() {
    let pool = Pool::new(4).expect("there is memory");
    let workers = Workers::new(4).expect("there is memory");
    let values = PerThread::<Cell<u64>>::new();
    let mut names = Names::new(16).expect("there is memory");
    let mut others = Names::new(3).expect("there is memory");
    let first = others.deal(1).expect("there is memory");
    let begun = Instant::now();

    let hoard = Hoard::all();
    let waited = pool.acquire_timeout(Duration::from_secs(60)).map(drop);
    let acquired = pool.acquire().is_some();
    let attached = workers.attach().map(drop);
    let valued = values.try_with(|_| ());
    let slots = Slots::try_new(&pool, |_| 0_u64).map(drop);
    let named = Names::new(16).map(drop);
    let (pooled, lined) = (Pool::new(4096).map(drop), Workers::new(4096).map(drop));
    let dealt = names.deal(1).map(|seat| seat.name());
    let other = others.deal(2).map(drop);
    let name = first.name();
    let taken = begun.elapsed();
    drop(hoard);

    assert_eq!(waited, Ok(()));
    assert!(acquired, "a number takes no memory");
    assert_eq!(attached, Ok(()), "a worker takes no memory");
    assert_eq!(valued, Err(Error::NoMemory));
    assert_eq!(slots, Err(Error::NoMemory));
    assert_eq!(named, Err(Error::NoMemory));
    assert_eq!(
        (pooled, lined),
        (Err(Error::NoMemory), Err(Error::NoMemory))
    );
    assert_eq!((dealt, other), (Ok(1), Ok(())), "a seat takes no memory");
    assert_eq!(name, 1, "a name takes no memory");
    assert!(taken < Duration::from_secs(50), "a call waited for memory");

    // All is as before where there is memory again.
    assert!(pool.acquire_timeout(Duration::ZERO).is_ok() && pool.is_empty());
    assert_eq!(
        workers.attach().expect("there is memory").stay().number(),
        1
    );
    assert_eq!(values.try_with(Cell::get), Ok(0));
    assert_eq!((names.left(), others.left()), (15, 1));
    assert!((2..=3).contains(&names.deal(2).expect("fifteen are left").name()));
    assert!((2..=3).contains(&others.deal(3).expect("one is left").name()));
}
