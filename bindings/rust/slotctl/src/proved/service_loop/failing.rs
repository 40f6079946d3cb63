// Erased by bindings/rust/erase from crates/service_loop/src/failing.rt, sha256 502fbdc46e3b0e60760d656f34dbcfc21ca7b7666670e8566f7e5089a9086fb9.
//! Connections that keep stays while the persister may not answer them.

use crate::kit::alloc::{AllocError, Allocator};
use crate::kit::Vec;
use crate::proved::model_pool::stays::stays::Stays;
use crate::proved::service_loop::connection::Connection;
use crate::proved::service_loop::stream::Stream;
use crate::proved::service_loop::turns::number_at;

// The connection of a seat is at fault, where there is one. Says whether it is to be queued.
fn fail_at<S: Stream, A: Allocator>(seats: &mut [Option<Connection<S, A>>], key: usize) -> bool {
    if key < seats.len() {
        if let Some(connection) = &mut seats[key] {
            return connection.fail();
        }
    }
    false
}

// The same, where it keeps a stay. It is due then.
fn fail_keeper_at<S: Stream, A: Allocator>(
    seats: &mut [Option<Connection<S, A>>],
    numbers: &[u64],
    stays: &Stays,
    ready: &mut Vec<usize>,
    key: usize,
) -> Result<(), AllocError> {
    if !stays.keeps_any(number_at(numbers, key)) {
        return Ok(());
    }
    if fail_at(seats, key) {
        ready.push(key)?;
    }
    Ok(())
}

/// Each connection that keeps a stay is at fault and due: nothing more is sent to it.
///
/// # Errors
///
/// `AllocError`: the list of connections that are due could not grow.
pub fn fail_keepers<S: Stream, A: Allocator>(
    seats: &mut [Option<Connection<S, A>>],
    numbers: &[u64],
    stays: &Stays,
    ready: &mut Vec<usize>,
) -> Result<(), AllocError> {
    let mut key = 0;
    while key < seats.len() {
        fail_keeper_at(seats, numbers, stays, ready, key)?;
        key += 1;
    }
    Ok(())
}
