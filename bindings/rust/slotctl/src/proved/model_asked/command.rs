// Erased by bindings/rust/erase from crates/model_asked/src/command.rt, sha256 d2a047ce98aea61717f6bb7bb5876cab6428811e8eed0b59a48b5bd0856ea0e6.
//! What a line asks for.

use crate::proved::model_asked::event::Event;

/// What a line that is not bad asks for.
#[derive(Clone, Copy, Debug, PartialEq, Eq)]
pub enum Command {
    /// An event: `begin ID`, `step ID`, `enter ID`, `probe ID`, `leave ID`, `put ID V`, `get ID`, `widen K`.
    Event(Event),
    /// The identity that has a name: `owner N`.
    Owner(u64),
    /// The end of the run: `quit`.
    Quit,
}
