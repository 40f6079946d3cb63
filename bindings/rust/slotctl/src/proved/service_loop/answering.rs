// Erased by bindings/rust/erase from crates/service_loop/src/answering.rt, sha256 f5240fcf2b0fd3a9b2e5acf2601c7975f758cde76c4708d8226f4c4c04271e8c.
//! Lines that ask who holds numbers, what changes of that, or the terms, after a turn of the loop.

use crate::kit::alloc::Allocator;
use crate::proved::service_loop::connection::{Connection, ConnectionStage};
use crate::proved::service_loop::feed::Feed;
use crate::proved::service_loop::first_point::FirstPoint;
use crate::proved::service_loop::persist::Persist;
use crate::proved::service_loop::shared::SharedBuffers;
use crate::proved::service_loop::stream::Stream;
use crate::proved::service_loop::terms::Terms;
use crate::proved::service_loop::turns::send_replies;

// The connection of a seat is answered, where there is one that rests.
fn answer_at<D, K: Persist<D>, S: Stream, A: Allocator, B: Allocator>(
    service: &D,
    persister: &K,
    terms: Terms,
    feed: &Feed,
    first: &FirstPoint,
    shared: &mut SharedBuffers<B>,
    seats: &mut [Option<Connection<S, A>>],
    key: usize,
) {
    if key < seats.len() {
        if let Some(connection) = &mut seats[key] {
            if let ConnectionStage::Idle = connection.stage {
                connection.answer(service, persister, terms, feed, first, shared);
            }
        }
    }
}

// The connections of these seats are answered. Nothing is sent.
fn answer_all<D, K: Persist<D>, S: Stream, A: Allocator, B: Allocator>(
    service: &D,
    persister: &K,
    terms: Terms,
    feed: &Feed,
    first: &FirstPoint,
    called: &[usize],
    shared: &mut SharedBuffers<B>,
    seats: &mut [Option<Connection<S, A>>],
) {
    for key in called {
        answer_at(service, persister, terms, feed, first, shared, seats, *key);
    }
}

/// After a turn of the loop: of each of these seats the line that waits first is answered, where it asks who holds numbers, what changes of that, or the terms, and
/// the answer is sent as far as its stream takes it now. Who holds numbers is what the persister holds to be so then: no other line was taken since the last was kept.
pub fn answer_queries<D, K: Persist<D>, S: Stream, A: Allocator, B: Allocator>(
    service: &D,
    persister: &K,
    terms: Terms,
    feed: &Feed,
    first: &FirstPoint,
    shared: &mut SharedBuffers<B>,
    seats: &mut [Option<Connection<S, A>>],
    called: &[usize],
) {
    answer_all(
        service, persister, terms, feed, first, called, shared, seats,
    );
    send_replies(seats, called);
}
