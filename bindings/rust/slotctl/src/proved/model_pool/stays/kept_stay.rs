// Erased by bindings/rust/erase from crates/model_pool/src/stays/kept_stay.rt, sha256 54cd6d67691258b39e55ea7fd4da047698e1dd673cc317f379cace23894e2502.
//! A stay, and who keeps it.

use crate::proved::model_pool::stays::keeper::Keeper;

/// A stay, and who keeps it.
#[derive(Clone, Copy, Debug, PartialEq, Eq)]
pub struct KeptStay {
    /// The identity that stays.
    pub identity: u64,
    /// Who keeps the stay.
    pub keeper: Keeper,
}
