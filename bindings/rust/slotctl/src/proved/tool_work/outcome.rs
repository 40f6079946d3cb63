// Erased by bindings/rust/erase from crates/tool_work/src/outcome.rt, sha256 5590adda6720296bd8620887b06a4e18c78f63716c4d06a324f1e98167cba90e.
//! How the program goes on.

use crate::proved::tool_work::asked::{Hosting, Racing, Serving};

/// What the caller has still to do.
#[derive(Clone, Copy)]
pub enum Outcome<'a> {
    /// Nothing. This is the status of the program.
    Ended(u8),
    /// To let threads race.
    Race(Racing),
    /// To serve connections.
    Serve(Serving),
    /// To host a hall.
    Host(Hosting<'a>),
    /// To tell who holds numbers by a record.
    Held,
}
