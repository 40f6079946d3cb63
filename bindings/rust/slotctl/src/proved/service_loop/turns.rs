// Erased by bindings/rust/erase from crates/service_loop/src/turns.rt, sha256 29408ab7427711a27958891375a67b050a2758273ca2427b2d6e0bc834a282ae.
//! One turn of the loop.

use crate::kit::alloc::Allocator;
use crate::proved::service_loop::attended::Attended;
use crate::proved::service_loop::connection::{Connection, ConnectionStage};
use crate::proved::service_loop::persist::Persist;
use crate::proved::service_loop::shared::SharedBuffers;
use crate::proved::service_loop::stream::Stream;
use crate::proved::text_player::service::Service;

// The number of the connection of a seat.
pub(crate) fn number_at(numbers: &[u64], key: usize) -> u64 {
    if key < numbers.len() {
        numbers[key]
    } else {
        0
    }
}

// The connection of a seat has its turn, where there is one and its turn is due. It is the one of this number.
fn take_at<R, D: Service<R>, S: Stream, A: Allocator, B: Allocator>(
    rt: &R,
    service: &mut Attended<D>,
    shared: &mut SharedBuffers<B>,
    seats: &mut [Option<Connection<S, A>>],
    number: u64,
    key: usize,
) {
    if key < seats.len() {
        if let Some(connection) = &mut seats[key] {
            if let ConnectionStage::Queued = connection.stage {
                service.listen_to(number);
                connection.take(rt, service, shared);
                shared.note_turn(connection.buffers.has_input());
            }
        }
    }
}

/// The connections of these seats have their turns, one after another, until so much is to be kept; the first has it in any
/// case. Says how many of the seats were called. Nothing is sent. Who keeps a stay is noted by the numbers of the connections.
pub fn take_turns<R, D: Service<R>, K: Persist<D>, S: Stream, A: Allocator, B: Allocator>(
    rt: &R,
    service: &mut Attended<D>,
    persister: &K,
    shared: &mut SharedBuffers<B>,
    seats: &mut [Option<Connection<S, A>>],
    numbers: &[u64],
    ready: &[usize],
) -> usize {
    let mut called = 0;
    while called < ready.len() && (called == 0 || !persister.is_full(&service.service)) {
        let key = ready[called];
        take_at(rt, service, shared, seats, number_at(numbers, key), key);
        called += 1;
    }
    called
}

// The connection of a seat sends what waits, where there is one and its turn is taken.
fn send_at<S: Stream, A: Allocator>(seats: &mut [Option<Connection<S, A>>], key: usize) {
    if key < seats.len() {
        if let Some(connection) = &mut seats[key] {
            if let ConnectionStage::Taken = connection.stage {
                connection.send();
            }
        }
    }
}

/// The connections of these seats send what waits, as far as their streams take it now.
pub fn send_replies<S: Stream, A: Allocator>(
    seats: &mut [Option<Connection<S, A>>],
    called: &[usize],
) {
    for key in called {
        send_at(seats, *key);
    }
}

/// One turn of the loop: the connections of these seats take what came, what the service tells of it is kept, and only then are
/// replies sent. Says how many of the seats were called, one at least where any is given: of each of them the connection rests then, and the
/// others are to be called in the next turn. Who keeps a stay is noted by the numbers of the connections, in the order of all turns.
///
/// # Errors
///
/// The persister's own fault. No byte is sent.
pub fn iterate<R, D: Service<R>, K: Persist<D>, S: Stream, A: Allocator, B: Allocator>(
    rt: &R,
    service: &mut Attended<D>,
    persister: &mut K,
    shared: &mut SharedBuffers<B>,
    seats: &mut [Option<Connection<S, A>>],
    numbers: &[u64],
    ready: &[usize],
) -> Result<usize, K::Fault> {
    let called = take_turns(rt, service, persister, shared, seats, numbers, ready);
    persister.persist(&mut service.service)?;
    send_replies(seats, &ready[..called]);
    Ok(called)
}
