// Erased by bindings/rust/erase from crates/service_loop/src/take_queue.rt, sha256 38ba082b323d06336db5d10089ccac094e2e9c87ce9ffba7a54687bab2cbf779.
//! Those who wait for numbers, in the order in which they came.

use crate::kit::alloc::{AllocError, Allocator, Global};
use crate::kit::Vec;
use crate::proved::service_loop::connection::Connection;
use crate::proved::service_loop::persist::Persist;
use crate::proved::service_loop::stream::Stream;
use crate::proved::service_loop::take_line::TakeLine;
use crate::proved::service_loop::turns::number_at;

/// The most of those who wait that are called at once: what they say has room in one batch.
const MOST_CALLED: u64 = 32;

/// One who waits.
#[derive(Clone, Copy, Debug, PartialEq, Eq)]
pub struct Waiter {
    /// Where it sits.
    pub key: usize,
    /// The number of its connection.
    pub number: u64,
    /// For whom it takes a number.
    pub identity: u64,
    /// From which tick on it waits no longer.
    pub until: u64,
}

/// Those who wait for numbers, in the order in which they came, and who is called in a round.
pub struct TakeQueue {
    waiters: Vec<Waiter>,
    /// The seats of those who ask in this round, and do not wait.
    asking: Vec<usize>,
    /// The seats of those who are called in this round.
    called: Vec<usize>,
}

// For whom whoever sits there takes a number, and for how long it waits for one.
fn wish_at<S: Stream, A: Allocator>(
    seats: &[Option<Connection<S, A>>],
    key: usize,
) -> Option<TakeLine> {
    if key < seats.len() {
        if let Some(connection) = &seats[key] {
            return connection.wish();
        }
    }
    None
}

// Whether a number is waited for by this identity.
fn waits_for(identity: u64, wish: Option<TakeLine>) -> bool {
    match wish {
        Some(wish) => wish.identity == identity && 0 < wish.seconds,
        None => false,
    }
}

// Whether a number is taken by a line that is not to wait for one: it waits for no second, or is refused whatever is free.
fn asks_at_once<D, K: Persist<D>>(service: &D, persister: &K, wish: TakeLine) -> bool {
    wish.seconds == 0 || wish.identity == 0 || persister.has_stay(service, wish.identity)
}

// Whether one still waits where it sat.
fn waits_on<S: Stream, A: Allocator>(
    seats: &[Option<Connection<S, A>>],
    numbers: &[u64],
    waiter: &Waiter,
) -> bool {
    number_at(numbers, waiter.key) == waiter.number
        && waits_for(waiter.identity, wish_at(seats, waiter.key))
}

// Adds the seats of these to a list.
fn add_seats(waiters: &[Waiter], called: &mut Vec<usize>) -> Result<(), AllocError> {
    for waiter in waiters {
        called.push(waiter.key)?;
    }
    Ok(())
}

// Adds the seats of those of these to a list who wait no longer.
fn add_late(waiters: &[Waiter], tick: u64, called: &mut Vec<usize>) -> Result<(), AllocError> {
    for waiter in waiters {
        if waiter.until <= tick {
            called.push(waiter.key)?;
        }
    }
    Ok(())
}

impl TakeQueue {
    /// Nobody waits.
    pub fn new(alloc: Global) -> TakeQueue {
        TakeQueue {
            waiters: Vec::new(alloc),
            asking: Vec::new(alloc),
            called: Vec::new(alloc),
        }
    }

    /// Whether nobody waits.
    pub fn is_empty(&self) -> bool {
        self.waiters.is_empty()
    }

    /// Whether the connection of this number waits.
    pub fn has(&self, number: u64) -> bool {
        self.waiters.iter().any(|waiter| waiter.number == number)
    }

    /// The seats of those who are called.
    pub fn called(&self) -> &[usize] {
        &self.called
    }

    /// A round is over: nobody is called.
    pub fn clear_called(&mut self) {
        self.called.clear();
    }

    /// Lets go those who wait no more where they sat: they were answered, their connections ended, or there is no room for an answer. The others keep their
    /// order.
    pub fn let_go<S: Stream, A: Allocator>(
        &mut self,
        seats: &[Option<Connection<S, A>>],
        numbers: &[u64],
    ) {
        self.waiters
            .retain(|waiter| waits_on(seats, numbers, waiter));
    }

    // Notes who takes a number at a seat. Who waits joins behind all others, if it is not there yet. Who competes already is refused at once.
    fn note_at<D, K: Persist<D>, S: Stream, A: Allocator>(
        &mut self,
        service: &D,
        persister: &K,
        seats: &[Option<Connection<S, A>>],
        numbers: &[u64],
        key: usize,
        tick: u64,
    ) -> Result<(), AllocError> {
        let number = number_at(numbers, key);
        let Some(wish) = wish_at(seats, key) else {
            return Ok(());
        };
        if asks_at_once(service, persister, wish) {
            self.asking.push(key)?;
        } else if !self.has(number) {
            self.waiters.push(Waiter {
                key,
                number,
                identity: wish.identity,
                until: tick.saturating_add(wish.seconds),
            })?;
        }
        Ok(())
    }

    /// Notes who takes a number at these seats. Those who wait join behind all others, each once. Nobody waits whose identity is 0 or competes already: those
    /// ask at once, as they do whose lines wait for no second.
    ///
    /// # Errors
    ///
    /// `AllocError`: an allocation failed.
    pub fn note<D, K: Persist<D>, S: Stream, A: Allocator>(
        &mut self,
        service: &D,
        persister: &K,
        seats: &[Option<Connection<S, A>>],
        numbers: &[u64],
        ready: &[usize],
        tick: u64,
    ) -> Result<(), AllocError> {
        self.asking.clear();
        for key in ready {
            self.note_at(service, persister, seats, numbers, *key, tick)?;
        }
        Ok(())
    }

    /// Chooses who is called, where so many more may hold a number: the first of those who wait, and nobody else. Where nobody waits or none may, those
    /// are called who ask and do not wait, and those who wait no longer. Says whether those who are called wait on where they are refused.
    ///
    /// # Errors
    ///
    /// `AllocError`: an allocation failed.
    pub fn call(&mut self, room: u64, tick: u64) -> Result<bool, AllocError> {
        self.called.clear();
        let patient = 0 < room && !self.waiters.is_empty();
        if patient {
            let few = (room.min(MOST_CALLED) as usize).min(self.waiters.len());
            add_seats(&self.waiters[..few], &mut self.called)?;
        } else {
            add_late(&self.waiters, tick, &mut self.called)?;
            self.called.extend_from_slice(&self.asking)?;
        }
        Ok(patient)
    }
}
