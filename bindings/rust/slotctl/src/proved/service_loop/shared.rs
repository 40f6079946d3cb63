// Erased by bindings/rust/erase from crates/service_loop/src/shared.rt, sha256 c260b0764678b699bec4e9341511f0bef6744b2278afa48be7b77ddb4ee553f3.
//! What the connections of a loop share.

use crate::kit::alloc::Allocator;
use crate::kit::Clone;
use crate::kit::Vec;
use crate::proved::model_steps::refusal::NoMemory;
use crate::proved::model_steps::view::View;
use crate::proved::text_lines::replies::Replies;

/// The most bytes that are read of a connection in a turn.
pub const READ_ROOM: usize = 65_536;

/// The fewest bytes that are read of a connection in a turn, however many are due.
pub const LEAST_READ: usize = 1_024;

/// Room that each connection uses in its turn: for a view, for the bytes of one read, and for the replies to them.
pub struct SharedBuffers<A: Allocator> {
    pub view: View,
    pub chunk: Vec<u8, A>,
    pub replies: Replies<A>,
    /// How many bytes of the chunk a read may fill.
    pub share: usize,
    /// Whether a connection that had its turn since `share_among` left something to wait, as a line that asks who holds numbers or takes one.
    pub waits: bool,
    /// Whether those who take numbers, and wait for seconds, wait on where all are held.
    pub patient: bool,
}

impl<A: Allocator + Clone> SharedBuffers<A> {
    /// Room for a loop.
    ///
    /// # Errors
    ///
    /// `NoMemory`: an allocation failed.
    pub fn new(alloc: A) -> Result<SharedBuffers<A>, NoMemory> {
        let Ok(other) = alloc.clone() else {
            return Err(NoMemory);
        };
        let Ok(chunk) = Vec::from_elem(other, 0, READ_ROOM) else {
            return Err(NoMemory);
        };
        let replies = Replies::new(alloc)?;
        Ok(SharedBuffers {
            view: View::new(),
            chunk,
            replies,
            share: READ_ROOM,
            waits: false,
            patient: false,
        })
    }
}

impl<A: Allocator> SharedBuffers<A> {
    /// The chunk is divided among so many connections, so that each waits for no more than a chunk of the others; each has 1 KiB at least.
    /// None of them has left anything to wait yet.
    pub fn share_among(&mut self, connections: usize) {
        self.share = LEAST_READ.max(READ_ROOM / connections.max(1));
        self.waits = false;
    }

    /// A connection had its turn, and left something to wait or not.
    pub fn note_turn(&mut self, leaves: bool) {
        self.waits = self.waits || leaves;
    }

    /// How many bytes one read may give.
    pub fn most(&self) -> usize {
        self.share.max(1).min(READ_ROOM)
    }
}
