// Erased by bindings/rust/erase from crates/words_pool/src/ticket.rt, sha256 af5a6b5481b60f3c977b8989fb2fe0bd3d35a99c4152c1acbad24670767d3324.
//! The tickets with which threads take numbers.

use crate::kit::atomic_table::{Badge, Seat};
use crate::proved::words_pool::pool_view::PoolView;

/// A ticket of a line, with which a thread takes one number. It takes no bytes.
///
/// If it is dropped, the line has one ticket fewer.
pub struct Ticket {
    pub(crate) badge: Badge<PoolView>,
}

/// The tickets of a line that are not dealt yet.
pub struct Tickets {
    pub(crate) left: u64,
    pub(crate) seat: Seat<u8, PoolView>,
}
