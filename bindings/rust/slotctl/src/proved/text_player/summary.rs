// Erased by bindings/rust/erase from crates/text_player/src/summary.rt, sha256 ebe6d493bd547510f761278ee68d63b761631a64294d3bd7a384244385684b17.
//! The counts of a run.

use crate::proved::model_asked::bad::Bad;
use crate::proved::model_asked::reply::Reply;

/// The counts of a run. `quit` counts as accepted.
#[derive(Clone, Copy, Debug, PartialEq, Eq)]
pub struct Summary {
    /// The lines that were answered: `accepted + refused + bad`.
    pub lines: u64,
    /// The lines whose reply was no refusal.
    pub accepted: u64,
    /// The lines whose reply was a refusal.
    pub refused: u64,
    /// The lines that were bad.
    pub bad: u64,
}

impl Summary {
    /// Returns the counts before the first line, which are 0.
    pub fn new() -> Summary {
        Summary {
            lines: 0,
            accepted: 0,
            refused: 0,
            bad: 0,
        }
    }

    /// Counts one more reply, as refused if it is a refusal, and otherwise as accepted. At most 2^64 - 1 lines can be
    /// counted.
    #[inline(always)]
    pub fn count_reply(&mut self, reply: Reply<()>) {
        let Summary {
            lines,
            accepted,
            refused,
            bad,
        } = *self;
        let more = u64::from(reply.is_refusal());
        *self = Summary {
            lines: lines + 1,
            accepted: accepted + (1 - more),
            refused: refused + more,
            bad,
        };
    }

    /// Counts one more bad line. At most 2^64 - 1 lines can be counted.
    pub fn count_bad(&mut self, _why: Bad) {
        let Summary {
            lines,
            accepted,
            refused,
            bad,
        } = *self;
        *self = Summary {
            lines: lines + 1,
            accepted,
            refused,
            bad: bad + 1,
        };
    }
}
