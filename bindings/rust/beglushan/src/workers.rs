//! Threads that keep their numbers between stays.

use crate::error::Error;
use crate::key::new_key;
use crate::line::Line;
use crate::proved::words_pool::held::Held;
use crate::proved::words_pool::ticket::Ticket;
use core::fmt;
use core::marker::PhantomData;
use core::ops::Deref;
use std_alloc::sync::Arc;

/// Small numbers for threads that attach once and keep their number between stays.
///
/// A [`Worker`] takes its number at its first stay, and has it at each later stay with no access to shared memory. It gives the
/// number back when it rests or is dropped.
///
/// ```
/// use beglushan::{Slots, Workers};
///
/// let workers = Workers::new(8)?;
/// let buffers = Slots::new(&workers, |_| Vec::new());
/// std::thread::scope(|threads| {
///     for _ in 0..8 {
///         threads.spawn(|| {
///             let mut worker = workers.attach().expect("eight for eight threads");
///             for job in 0..100 {
///                 buffers.get(&mut worker.stay()).push(job); // a stay never fails
///             }
///         });
///     }
/// });
/// assert_eq!(buffers.into_inner().iter().map(Vec::len).sum::<usize>(), 800);
/// # Ok::<(), beglushan::Error>(())
/// ```
///
/// Workers for the whole program are a `static` with a `LazyLock`. [`with`](Workers::with) attaches a thread at its first stay, and
/// detaches it when it ends.
///
/// # Which number
///
/// The numbers are those of a line (Moir and Anderson 1995). Two laws of it are proved:
///
/// - A stay always has a number: there are as many tickets as numbers, and an attached worker has a ticket.
/// - The number that a worker takes is at most the most workers that held or sought one at one moment of the taking.
///
/// So a number is at most the most workers attached at one moment, and is small if few are attached.
///
/// # What an idle worker means for others
///
/// An attached worker that does nothing keeps its number. The others have every other number, and lose no more than that one:
/// a number taken meanwhile is at most one greater for it. A worker that will idle for long calls [`rest`](WorkerOf::rest).
///
/// # What waits
///
/// `attach` deals a ticket and the drop of a worker takes it back. Each takes a mutex for that moment, which no stay takes. After a
/// `fork` such a call returns [`Error::Forked`] in the child if another thread had the mutex. Without the feature `std` the mutex
/// spins.
pub struct Workers {
    line: Line,
    key: usize,
}

impl Workers {
    /// Room for `capacity` attached workers, from 1 to [`MAX_NUMBERS`](crate::MAX_NUMBERS), with as many numbers.
    ///
    /// # Errors
    ///
    /// - [`Error::Size`]: the capacity is out of range.
    /// - [`Error::NoMemory`]: an allocation failed.
    pub fn new(capacity: usize) -> Result<Workers, Error> {
        Ok(Workers {
            line: Line::new(capacity)?,
            key: new_key(),
        })
    }

    /// How many workers may be attached at once.
    #[must_use]
    pub fn capacity(&self) -> usize {
        self.line.capacity()
    }

    /// Attaches one more worker, until it is dropped. It holds no number yet.
    ///
    /// # Errors
    ///
    /// - [`Error::Full`]: as many workers are attached as there are numbers.
    /// - [`Error::Forked`]: the process is a child in which the call would hang.
    pub fn attach(&self) -> Result<Worker<'_>, Error> {
        WorkerOf::of(self)
    }

    /// The same, with a worker that keeps the workers, for threads that outlive the place where those were made.
    ///
    /// # Errors
    ///
    /// Those of [`attach`](Workers::attach).
    pub fn attach_owned(self: &Arc<Self>) -> Result<OwnedWorker, Error> {
        WorkerOf::of(Arc::clone(self))
    }

    #[inline(always)]
    pub(crate) fn key(&self) -> usize {
        self.key
    }
}

impl fmt::Debug for Workers {
    fn fmt(&self, f: &mut fmt::Formatter<'_>) -> fmt::Result {
        f.debug_struct("Workers")
            .field("capacity", &self.capacity())
            .finish_non_exhaustive()
    }
}

/// A worker of workers that are lent.
pub type Worker<'a> = WorkerOf<&'a Workers>;

/// A worker that keeps its workers.
pub type OwnedWorker = WorkerOf<Arc<Workers>>;

/// One that is attached to [`Workers`]. It may go to another thread, with its number.
#[must_use = "a worker that is dropped is no longer attached"]
pub struct WorkerOf<W: LentWorkers> {
    /// The number that it has, or 0.
    number: usize,
    key: usize,
    has: Has,
    workers: W,
}

/// What a worker has of its line.
enum Has {
    /// It rests.
    Ticket(Ticket),
    Number(Held),
    /// It was dropped, or what it does now never came back.
    Nothing,
}

impl<W: LentWorkers> WorkerOf<W> {
    fn of(workers: W) -> Result<WorkerOf<W>, Error> {
        let ticket = workers.line.deal()?;
        Ok(WorkerOf {
            number: 0,
            key: workers.key,
            has: Has::Ticket(ticket),
            workers,
        })
    }

    /// A stay, with the number that this worker keeps, or one that it takes now.
    #[inline(always)]
    pub fn stay(&mut self) -> Stay<'_> {
        if self.number == 0 {
            self.take();
        }
        Stay::of(self.number, self.key)
    }

    #[cold]
    #[inline(never)]
    fn take(&mut self) {
        let Has::Ticket(ticket) = core::mem::replace(&mut self.has, Has::Nothing) else {
            unreachable!("a worker has a ticket or a number until it is dropped");
        };
        let held = self.workers.line.acquire(ticket);
        self.number = held.number() as usize;
        self.has = Has::Number(held);
    }

    /// Gives the number back that this worker keeps, if it keeps one. Its next stay takes a number anew.
    pub fn rest(&mut self) {
        self.number = 0;
        self.has = match core::mem::replace(&mut self.has, Has::Nothing) {
            Has::Number(held) => Has::Ticket(self.workers.line.release(held)),
            has => has,
        };
    }

    /// The number that this worker keeps, if it keeps one.
    #[must_use]
    pub fn kept(&self) -> Option<usize> {
        (self.number != 0).then_some(self.number)
    }

    /// What tells its workers from all others.
    #[cfg(feature = "std")]
    pub(crate) fn key(&self) -> usize {
        self.key
    }
}

impl<W: LentWorkers> Drop for WorkerOf<W> {
    fn drop(&mut self) {
        self.rest();
        if let Has::Ticket(ticket) = core::mem::replace(&mut self.has, Has::Nothing) {
            self.workers.line.take_back(ticket);
        }
    }
}

impl<W: LentWorkers> fmt::Debug for WorkerOf<W> {
    fn fmt(&self, f: &mut fmt::Formatter<'_>) -> fmt::Result {
        f.debug_struct("Worker")
            .field("kept", &self.kept())
            .finish_non_exhaustive()
    }
}

/// The guard of a stay of a [`Worker`], which has the worker's number. Nobody else has that number meanwhile.
#[must_use = "a stay says which place is its worker's"]
pub struct Stay<'worker> {
    number: usize,
    key: usize,
    // The worker can't rest meanwhile.
    worker: PhantomData<&'worker mut ()>,
}

impl Stay<'_> {
    /// A stay with a number that a worker keeps meanwhile. The caller makes no other stay with it for so long.
    #[inline(always)]
    pub(crate) fn of<'worker>(number: usize, key: usize) -> Stay<'worker> {
        Stay {
            number,
            key,
            worker: PhantomData,
        }
    }

    /// The number, from 1 to the capacity of the workers.
    #[must_use]
    #[inline]
    pub fn number(&self) -> usize {
        self.number
    }

    /// The number less one: a place of an array with an element for each worker.
    #[must_use]
    #[inline]
    pub fn index(&self) -> usize {
        self.number - 1
    }

    #[inline(always)]
    pub(crate) fn key(&self) -> usize {
        self.key
    }
}

impl fmt::Debug for Stay<'_> {
    fn fmt(&self, f: &mut fmt::Formatter<'_>) -> fmt::Result {
        f.debug_struct("Stay")
            .field("number", &self.number)
            .finish_non_exhaustive()
    }
}

/// How a worker has its workers: by reference or by a count. No other type can have this.
pub trait LentWorkers: Deref<Target = Workers> + sealed::Sealed {}

impl LentWorkers for &Workers {}
impl LentWorkers for Arc<Workers> {}

mod sealed {
    use super::{Arc, Workers};

    pub trait Sealed {}
    impl Sealed for &Workers {}
    impl Sealed for Arc<Workers> {}
}
