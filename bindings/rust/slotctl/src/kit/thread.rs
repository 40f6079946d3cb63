//! Threads, in the place of the kit's `std::thread`. Where the system makes no thread, the work is done in this one.

use super::alloc::{AllocError, Global};
use super::time::{Clock, Duration};
use super::Vec;
use std::io;
use std::num::NonZeroUsize;
use std::sync::{Mutex, PoisonError};

/// Leave to start threads.
pub trait Threads {}

/// `sleep`: waits for so long.
pub fn sleep<R: Clock>(_rt: &R, time: Duration) {
    std::thread::sleep(time);
}

/// `available_parallelism`: how many threads run at once.
///
/// # Errors
///
/// What the system says where that is not known.
pub fn available_parallelism<R: Threads>(_rt: &R) -> io::Result<NonZeroUsize> {
    std::thread::available_parallelism()
}

/// A job that one thread takes: the new one, or this one where no thread was made.
struct Job<F>(Mutex<Option<F>>);

impl<T, F: FnOnce() -> T> Job<F> {
    fn new(job: F) -> Job<F> {
        Job(Mutex::new(Some(job)))
    }

    fn run(&self) -> Option<T> {
        let job = self.0.lock().unwrap_or_else(PoisonError::into_inner).take();
        job.map(|job| job())
    }
}

/// `join`: runs `front` in a thread of its own and `back` in this one, and returns what both return.
pub fn join<R: Threads, A: Send, B>(
    _rt: &R,
    front: impl FnOnce() -> A + Send,
    back: impl FnOnce() -> B,
) -> (A, B) {
    let front = Job::new(front);
    std::thread::scope(|scope| {
        let thread = std::thread::Builder::new().spawn_scoped(scope, || front.run());
        let made = back();
        let first = match thread {
            Ok(thread) => thread
                .join()
                .unwrap_or_else(|panic| std::panic::resume_unwind(panic)),
            Err(_) => front.run(),
        };
        match first {
            Some(first) => (first, made),
            None => unreachable!("each job is run once"),
        }
    })
}

/// `map_vec`: calls `f` at each job, each in a thread of its own, and returns the results in order.
///
/// # Errors
///
/// `AllocError` where an allocation failed. Some jobs may then have been dropped.
pub fn map_vec<R: Threads + Sync, J: Send, X: Send>(
    rt: &R,
    jobs: Vec<J>,
    f: &(impl Fn(J) -> X + Sync),
) -> Result<Vec<X>, AllocError> {
    let mut low = jobs;
    if low.len() < 2 {
        let mut done = Vec::with_capacity(Global, 1)?;
        if let Some(job) = low.pop() {
            done.push_reserved(f(job));
        }
        return Ok(done);
    }
    let high = low.split_off(low.len() / 2)?;
    let (first, second) = join(rt, || map_vec(rt, low, f), || map_vec(rt, high, f));
    let mut all = first?;
    all.append(second?)?;
    Ok(all)
}

/// `for_each_chunk_mut`: calls `f` at each chunk of this size, with where it starts, each in a thread of its own.
pub fn for_each_chunk_mut<R: Threads + Sync, T: Send>(
    rt: &R,
    items: &mut [T],
    size: usize,
    f: &(impl Fn(usize, &mut [T]) + Sync),
) {
    if !items.is_empty() {
        chunks_from(rt, f, 0, size, items);
    }
}

fn chunks_from<R: Threads + Sync, T: Send>(
    rt: &R,
    f: &(impl Fn(usize, &mut [T]) + Sync),
    base: usize,
    size: usize,
    items: &mut [T],
) {
    let count = items.len().div_ceil(size);
    if count == 1 {
        return f(base, items);
    }
    let middle = count / 2 * size;
    let (low, high) = items.split_at_mut(middle);
    join(
        rt,
        || chunks_from(rt, f, base, size, low),
        || chunks_from(rt, f, base + middle, size, high),
    );
}
