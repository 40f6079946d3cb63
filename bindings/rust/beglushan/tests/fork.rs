//! What a child has after a fork: no call hangs there, and its threads have values of their own.

#![cfg(all(target_os = "linux", feature = "std", not(miri)))]

use beglushan::{PerThread, Pool, Workers};
use std::cell::Cell;
use std::process;
use std::ptr;
use std::sync::atomic::{AtomicBool, Ordering::Relaxed};
use std::thread;
use std::time::Duration;

unsafe extern "C" {
    fn fork() -> i32;
    fn waitpid(child: i32, status: *mut i32, options: i32) -> i32;
    fn alarm(seconds: u32) -> u32;
    fn _exit(status: i32) -> !;
    fn pthread_create(
        thread: *mut usize,
        attributes: *const (),
        begin: extern "C" fn(*mut ()) -> *mut (),
        argument: *mut (),
    ) -> i32;
    fn pthread_join(thread: usize, told: *mut *mut ()) -> i32;
}

/// What the child's own thread does: it answers one more than the value that it found.
extern "C" fn begins(_: *mut ()) -> *mut () {
    VALUES.with(|value| value.replace(7) + 1) as usize as *mut ()
}

/// One more than what a thread of the child finds. It is begun by C's call, since the standard library has a lock of its own for that.
fn found_by_a_thread() -> usize {
    let (mut thread, mut told) = (0, ptr::null_mut());
    // SAFETY: the thread ends before this does.
    unsafe {
        let made = pthread_create(&raw mut thread, ptr::null(), begins, ptr::null_mut());
        assert_eq!(made, 0);
        assert_eq!(pthread_join(thread, &raw mut told), 0);
    }
    told as usize
}

/// Tells the other threads that it is over, in a panic too.
struct Over<'a>(&'a AtomicBool);

impl Drop for Over<'_> {
    fn drop(&mut self) {
        self.0.store(true, Relaxed);
    }
}

static VALUES: PerThread<Cell<u64>> = PerThread::new();

/// What the child does. It answers how many of its own expectations failed.
fn child(pool: &Pool, workers: &Workers, mine: u64) -> i32 {
    let mut failed = 0;
    let mut expect = |holds: bool| failed += i32::from(!holds);
    // This thread goes on with its value.
    expect(VALUES.with(Cell::get) == mine);
    // A thread of the child has a value of its own, and ends.
    expect(found_by_a_thread() == 1);
    // Each answers something, whatever other threads were doing at the fork.
    drop(pool.acquire());
    drop(pool.acquire_timeout(Duration::from_millis(1)));
    drop(workers.attach());
    let fresh = Pool::new(2).expect("there is memory");
    expect(fresh.acquire().is_some());
    failed
}

/// Many forks, while other threads begin, end and wait.
#[test]
fn a_child_does_not_hang() {
    let (pool, workers) = (Pool::new(4).unwrap(), Workers::new(64).unwrap());
    let is_over = AtomicBool::new(false);
    VALUES.with(|mine| mine.set(3));
    thread::scope(|scope| {
        for _ in 0..3 {
            scope.spawn(|| {
                while !is_over.load(Relaxed) {
                    let begins = || {
                        VALUES.with(|value| value.set(5));
                        drop(workers.attach());
                        drop(pool.acquire());
                    };
                    thread::scope(|inner| inner.spawn(begins).join().unwrap());
                    drop(pool.acquire_timeout(Duration::from_micros(50)));
                }
            });
        }
        let _over = Over(&is_over);
        for _ in 0..100 {
            // SAFETY: the child calls the crate, and C's threads and memory, which glibc lets it.
            let process = unsafe { fork() };
            if process == 0 {
                // SAFETY: it ends the child if it hangs, and ends it with no destructors.
                unsafe {
                    alarm(30);
                    _exit(child(&pool, &workers, 3));
                }
            }
            assert!(process > 0, "no child: {}", process::id());
            let mut status = -1;
            // SAFETY: it waits for the child just made.
            assert_eq!(unsafe { waitpid(process, &raw mut status, 0) }, process);
            assert_eq!(status, 0, "the child failed or hung");
        }
    });
}
