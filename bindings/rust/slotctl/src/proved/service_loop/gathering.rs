// Erased by bindings/rust/erase from crates/service_loop/src/gathering.rt, sha256 155332c6eae8572a5a68c177dccef76baa8cf544aeaa94848e5e5eb9b07e91a6.
//! One turn of the loop over a service that learns its answers before.

use crate::kit::alloc::Allocator;
use crate::kit::Vec;
use crate::proved::model_asked::kind::WorldKind;
use crate::proved::service_loop::attended::Attended;
use crate::proved::service_loop::connection::{Connection, ConnectionStage};
use crate::proved::service_loop::losing::note_lost;
use crate::proved::service_loop::peek::has_room;
use crate::proved::service_loop::persist::{Persist, Prefetch};
use crate::proved::service_loop::shared::SharedBuffers;
use crate::proved::service_loop::stream::Stream;
use crate::proved::service_loop::turns::{number_at, send_replies};
use crate::proved::text_player::service::Service;

/// What goes to a persister before a turn takes it.
pub struct Batch<A: Allocator> {
    /// The world whose commands are spoken.
    pub kind: WorldKind,
    /// How many bytes of lines go to the persister at most.
    pub most: usize,
    /// Lines of requests, in the order in which they will be taken, each with its LF.
    pub lines: Vec<u8, A>,
    /// Whether it is asked too who holds numbers.
    pub holds: bool,
}

impl<A: Allocator> Batch<A> {
    /// Nothing is reported yet, and so many bytes at most are at once.
    pub fn new(alloc: A, kind: WorldKind, most: usize) -> Batch<A> {
        Batch {
            kind,
            most,
            lines: Vec::new(alloc),
            holds: false,
        }
    }
}

/// How a turn ended before which its answers were to be prefetched, and how many of the seats were called; the others are to be called in the
/// next turn.
#[derive(Clone, Copy, Debug, PartialEq, Eq)]
pub enum Called {
    /// They had their turn.
    Served(usize),
    /// The answers were not prefetched: nothing was taken of any and nothing sent, and those whose lines are in the batch are at fault.
    Unserved(usize),
}

impl Called {
    /// How many of the seats were called.
    pub fn count(self) -> usize {
        match self {
            Called::Served(count) | Called::Unserved(count) => count,
        }
    }
}

// The connection of a seat is read, and its lines are looked at, where there is one and its turn is due.
fn gather_at<S: Stream, A: Allocator, B: Allocator>(
    batch: &mut Batch<B>,
    shared: &mut SharedBuffers<B>,
    seats: &mut [Option<Connection<S, A>>],
    key: usize,
) {
    if key < seats.len() {
        if let Some(connection) = &mut seats[key] {
            if let ConnectionStage::Queued = connection.stage {
                connection.gather(batch.kind, batch.most, shared, &mut batch.lines);
            }
        }
    }
}

/// The connections of these seats are read, and their lines are looked at, one after another, as far as there is room for one line more
/// in the batch; the first is in any case. Says how many of the seats had their look. Nothing is taken and nothing sent.
pub fn gather<S: Stream, A: Allocator, B: Allocator>(
    batch: &mut Batch<B>,
    shared: &mut SharedBuffers<B>,
    seats: &mut [Option<Connection<S, A>>],
    ready: &[usize],
) -> usize {
    batch.lines.clear();
    let mut peeked = 0;
    while peeked < ready.len() && has_room(batch.most, &batch.lines) {
        gather_at(batch, shared, seats, ready[peeked]);
        peeked += 1;
    }
    peeked
}

// The connection of a seat is at fault, where there is one whose lines are in the batch; each other waits for its next turn.
fn give_up_at<S: Stream, A: Allocator>(seats: &mut [Option<Connection<S, A>>], key: usize) {
    if key < seats.len() {
        if let Some(connection) = &mut seats[key] {
            connection.give_up();
        }
    }
}

// The connections of these seats whose lines are in the batch are at fault; nothing is taken of any, and nothing sent.
fn give_up<S: Stream, A: Allocator>(seats: &mut [Option<Connection<S, A>>], called: &[usize]) {
    for key in called {
        give_up_at(seats, *key);
    }
}

// The connection of a seat has its turn over what was looked at, where there is one and its turn is due. It is the one of this number.
fn take_peeked_at<R, D: Service<R>, S: Stream, A: Allocator, B: Allocator>(
    rt: &R,
    service: &mut Attended<D>,
    shared: &mut SharedBuffers<B>,
    seats: &mut [Option<Connection<S, A>>],
    number: u64,
    key: usize,
) {
    if key < seats.len() {
        if let Some(connection) = &mut seats[key] {
            if let ConnectionStage::Queued = connection.stage {
                service.listen_to(number);
                connection.take_peeked(rt, service, shared);
                shared.note_turn(connection.buffers.has_input());
            }
        }
    }
}

// The connections of these seats have their turns over what was looked at, one after another. Nothing is sent.
fn take_peeked<R, D: Service<R>, S: Stream, A: Allocator, B: Allocator>(
    rt: &R,
    service: &mut Attended<D>,
    shared: &mut SharedBuffers<B>,
    seats: &mut [Option<Connection<S, A>>],
    numbers: &[u64],
    called: &[usize],
) {
    for key in called {
        take_peeked_at(rt, service, shared, seats, number_at(numbers, *key), *key);
    }
}

// Whether the connection of a seat asks who holds numbers, as it was looked at.
fn asks_holders_at<S: Stream, A: Allocator>(
    seats: &[Option<Connection<S, A>>],
    key: usize,
) -> bool {
    if key < seats.len() {
        if let Some(connection) = &seats[key] {
            return connection.asks_holders();
        }
    }
    false
}

// Whether a connection of these seats does.
fn any_asks_holders<S: Stream, A: Allocator>(
    seats: &[Option<Connection<S, A>>],
    called: &[usize],
) -> bool {
    for key in called {
        if asks_holders_at(seats, *key) {
            return true;
        }
    }
    false
}

/// Has the persister learn a batch, where there is something in it.
pub(crate) fn prefetch<D, K: Persist<D>, B: Allocator>(
    service: &mut D,
    persister: &mut K,
    batch: &Batch<B>,
) -> Result<Prefetch, K::Fault> {
    if batch.lines.is_empty() && !batch.holds {
        return Ok(Prefetch::Known);
    }
    persister.prefetch(service, &batch.lines)
}

/// One turn of the loop over a service that learns its answers before: the connections of these seats are read, the requests among their
/// lines go to the persister, which has the service prefetch the answers, and then they take their turns (as in `iterate`). Where the answers are not
/// prefetched in time, those whose lines are in the batch are at fault, and nothing is sent. No connection takes more than was looked at. One seat at
/// least is called, where any is given, and of each that is called the connection rests then. Who keeps a stay is noted as in `iterate`. Of each
/// `enter` among lines whose answers are lost it is noted that nobody keeps the stay, unless a connection does: it may have been applied.
///
/// # Errors
///
/// The persister's own fault. No byte is sent.
pub fn iterate_prefetched<
    R,
    D: Service<R>,
    K: Persist<D>,
    S: Stream,
    A: Allocator,
    B: Allocator,
>(
    rt: &R,
    service: &mut Attended<D>,
    persister: &mut K,
    batch: &mut Batch<B>,
    shared: &mut SharedBuffers<B>,
    seats: &mut [Option<Connection<S, A>>],
    numbers: &[u64],
    ready: &[usize],
) -> Result<Called, K::Fault> {
    let peeked = gather(batch, shared, seats, ready);
    let called = &ready[..peeked];
    batch.holds = any_asks_holders(seats, called);
    match prefetch(&mut service.service, persister, batch)? {
        Prefetch::Known => {
            take_peeked(rt, service, shared, seats, numbers, called);
            persister.persist(&mut service.service)?;
            send_replies(seats, called);
            Ok(Called::Served(peeked))
        }
        Prefetch::Lost => {
            give_up(seats, called);
            note_lost(service, &batch.lines, batch.kind);
            Ok(Called::Unserved(peeked))
        }
    }
}
