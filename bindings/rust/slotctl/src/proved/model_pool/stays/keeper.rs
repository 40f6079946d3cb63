// Erased by bindings/rust/erase from crates/model_pool/src/stays/keeper.rt, sha256 fc203e0ab6c10409cf12e9c916ee5201af6054d3a7369e8a3fa5d48a3086a011.
//! Who keeps a stay.

/// Who keeps a stay.
#[derive(Clone, Copy, Debug, PartialEq, Eq)]
pub enum Keeper {
    /// The keeper of this number, which has not ended.
    Open(u64),
    /// Nobody since this tick, at which the keeper ended.
    Gone(u64),
    /// Nobody, since the keeper said `quit`.
    Quit,
}

impl Keeper {
    /// Returns who keeps the stay after this keeper ended at this tick.
    pub fn after_end(self, keeper: u64, tick: u64) -> Keeper {
        match self {
            Keeper::Open(open) if open == keeper => Keeper::Gone(tick),
            other => other,
        }
    }

    /// Returns who keeps the stay after this keeper said `quit`.
    pub fn after_quit(self, keeper: u64) -> Keeper {
        match self {
            Keeper::Open(open) if open == keeper => Keeper::Quit,
            other => other,
        }
    }

    /// Whether the keeper of this number keeps the stay.
    pub fn is(self, keeper: u64) -> bool {
        match self {
            Keeper::Open(open) => open == keeper,
            Keeper::Gone(_) | Keeper::Quit => false,
        }
    }

    /// Whether it has not ended.
    pub fn is_open(self) -> bool {
        match self {
            Keeper::Open(_) => true,
            Keeper::Gone(_) | Keeper::Quit => false,
        }
    }

    /// Whether the stay is to end at this tick: nobody kept it for more than `grace` ticks, or its keeper said `quit`.
    pub fn is_due(self, grace: u64, tick: u64) -> bool {
        match self {
            Keeper::Open(_) => false,
            Keeper::Gone(since) => since < tick && grace < tick - since,
            Keeper::Quit => true,
        }
    }
}
