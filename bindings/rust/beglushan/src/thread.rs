//! One number for each thread, which all `PerThread`s of the process share.
//!
//! The numbers are those of lines: a first line, then one line after another, each twice as long up to the most. A thread is dealt
//! a ticket of the first line that has one, takes a number by it at its first use, and gives both back when it ends.
#![allow(unsafe_code)]

use crate::error::Error;
use crate::line::Line;
use crate::lock::Process;
use crate::pool::MAX_NUMBERS;
use crate::proved::words_pool::held::Held;
use crate::proved::words_pool::ticket::Ticket;
use std::cell::Cell;
use std::ptr;
use std::sync::atomic::Ordering::{AcqRel, Acquire, Release};
use std::sync::atomic::{AtomicPtr, AtomicUsize};
use std::sync::Mutex;

/// How many numbers the first line has.
const FIRST_NUMBERS: usize = 64;

/// Where the value of an index stands: in a bucket of a power of two of values.
#[derive(Clone, Copy, PartialEq, Eq, Debug)]
pub(crate) struct Place {
    pub(crate) bucket: usize,
    pub(crate) offset: usize,
}

/// How many buckets there can be. They have room for more threads than a process can have.
pub(crate) const BUCKETS: usize = 31;

/// The place of a thread that has no number. No value stands there.
const NOWHERE: Place = Place {
    bucket: BUCKETS,
    offset: 0,
};

impl Place {
    /// Bucket `b` has the indices from `2^b - 1` on, `2^b` of them.
    pub(crate) fn of(index: usize) -> Place {
        let bucket = (index + 1).ilog2() as usize;
        Place {
            bucket,
            offset: index + 1 - (1 << bucket),
        }
    }

    pub(crate) fn index(self) -> usize {
        (1 << self.bucket) - 1 + self.offset
    }
}

/// The lines of one process. They are never dropped.
struct Lines {
    process: Process,
    /// The least index of the first line.
    base: usize,
    /// One more than the greatest index that a line has.
    end: AtomicUsize,
    all: Mutex<Vec<&'static Line>>,
}

static LINES: AtomicPtr<Lines> = AtomicPtr::new(ptr::null_mut());

/// A thread's number.
struct Number {
    held: Held,
    line: &'static Line,
    index: usize,
}

/// Gives the thread's number back when the thread ends.
struct Guard(Cell<Option<Number>>);

thread_local! {
    /// Where this thread's values stand. It has no destructor, which makes it quick.
    static PLACE: Cell<Place> = const { Cell::new(NOWHERE) };
    /// Whether this thread is about to take a number or to give it back.
    static BUSY: Cell<bool> = const { Cell::new(false) };
    static GUARD: Guard = const { Guard(Cell::new(None)) };
}

impl Drop for Guard {
    fn drop(&mut self) {
        // What runs later in this thread must not find a place that is given back.
        PLACE.set(NOWHERE);
        if let (Some(number), Some(_busy)) = (self.0.take(), Busy::begin()) {
            number.give_back();
        }
    }
}

/// The place of this thread, or one that no value stands at.
#[inline(always)]
pub(crate) fn place_or_nowhere() -> Place {
    PLACE.get()
}

/// The index of this thread, if it has a number.
#[inline]
pub(crate) fn index_if_any() -> Option<usize> {
    let place = PLACE.get();
    (place != NOWHERE).then(|| place.index())
}

/// Calls with the place of this thread, which takes a number if it has none. A thread that is about to end, and has given its
/// number back, takes another for this call alone.
pub(crate) fn with_place<R>(call: impl FnOnce(Place) -> R) -> Result<R, Error> {
    let place = PLACE.get();
    if place != NOWHERE {
        return Ok(call(place));
    }
    let busy = Busy::begin().ok_or(Error::Nested)?;
    let number = Number::take()?;
    let place = Place::of(number.index);
    let mut number = Some(number);
    let is_kept = GUARD.try_with(|guard| guard.0.set(number.take())).is_ok();
    if is_kept {
        PLACE.set(place);
    }
    drop(busy);
    let told = call(place);
    if let (Some(number), Some(_busy)) = (number, Busy::begin()) {
        number.give_back();
    }
    Ok(told)
}

/// That this thread takes a number or gives it back, until this is dropped. An allocator that is called meanwhile, and asks for
/// the thread's number, is told so.
struct Busy;

impl Busy {
    fn begin() -> Option<Busy> {
        if BUSY.replace(true) {
            return None;
        }
        Some(Busy)
    }
}

impl Drop for Busy {
    fn drop(&mut self) {
        BUSY.set(false);
    }
}

impl Number {
    fn take() -> Result<Number, Error> {
        let lines = Lines::of_this_process()?;
        let (place, line, ticket) = lines.deal()?;
        let held = line.acquire(ticket);
        let index = lines.base + first_of(place) + held.number() as usize - 1;
        let number = Number { held, line, index };
        if Place::of(index).bucket >= BUCKETS {
            number.give_back();
            return Err(Error::NoMemory);
        }
        Ok(number)
    }

    fn give_back(self) {
        self.line.take_back(self.line.release(self.held));
    }
}

/// How many numbers a line has.
fn length(line: usize) -> usize {
    let doubled = 1_usize.checked_shl(line as u32).unwrap_or(MAX_NUMBERS);
    doubled.saturating_mul(FIRST_NUMBERS).min(MAX_NUMBERS)
}

/// How many numbers the lines before this one have.
fn first_of(line: usize) -> usize {
    (0..line).map(length).sum()
}

impl Lines {
    /// Those of this process. A child of a fork makes lines of its own, whose numbers are no number of its parent's: what a
    /// thread of the parent had is nobody's in the child.
    fn of_this_process() -> Result<&'static Lines, Error> {
        let process = Process::this();
        loop {
            let found = LINES.load(Acquire);
            // SAFETY: lines are never dropped.
            let before = unsafe { found.as_ref() };
            if let Some(lines) = before.filter(|lines| lines.process == process) {
                return Ok(lines);
            }
            let base = before.map_or(0, |lines| lines.end.load(Acquire));
            // A vector has room where there is memory, and tells where there is none.
            let mut room = Vec::new();
            room.try_reserve_exact(1).map_err(|_| Error::NoMemory)?;
            room.push(Lines {
                process,
                base,
                end: AtomicUsize::new(base),
                all: Mutex::new(Vec::new()),
            });
            let new = room.as_mut_ptr();
            if LINES.compare_exchange(found, new, AcqRel, Acquire).is_ok() {
                std::mem::forget(room);
                // SAFETY: lines are never dropped.
                return Ok(unsafe { &*new });
            }
        }
    }

    /// A ticket of the first line that has one, and which line that is.
    fn deal(&self) -> Result<(usize, &'static Line, Ticket), Error> {
        let mut all = self.process.lock(&self.all).ok_or(Error::Forked)?;
        for (place, line) in all.iter().enumerate() {
            match line.deal() {
                Err(Error::Full { .. }) => {}
                told => return told.map(|ticket| (place, *line, ticket)),
            }
        }
        let place = all.len();
        let line = longer(&mut all)?;
        self.end.store(self.base + first_of(place + 1), Release);
        Ok((place, line, line.deal()?))
    }
}

/// A further line, which is never dropped.
fn longer(all: &mut Vec<&'static Line>) -> Result<&'static Line, Error> {
    all.try_reserve(1).map_err(|_| Error::NoMemory)?;
    let mut room = Vec::new();
    room.try_reserve_exact(1).map_err(|_| Error::NoMemory)?;
    room.push(Line::new(length(all.len()))?);
    let line = &room.leak()[0];
    all.push(line);
    Ok(line)
}
