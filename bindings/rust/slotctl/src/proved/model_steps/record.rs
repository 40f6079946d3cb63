// Erased by bindings/rust/erase from crates/model_steps/src/record.rt, sha256 1d833e5e9133234cfa22bacfcd8006d5f5e1cb14ac18ba3ac0f07463875d58bb.
//! What a segment holds.

use crate::proved::model_steps::view::View;

/// What an update writes into its segment, in one step. Its view helps scans that are under way (Afek et al. 1993).
#[derive(Clone, Copy, Debug)]
pub struct Record {
    /// The identity that wrote it.
    pub identity: u64,
    /// The value that was written.
    pub value: u64,
    /// Which write of this segment it is, from 1.
    pub number: u32,
    /// The view that the update scanned.
    pub view: View,
}

/// A segment: empty, or the last record that its owner wrote.
pub type Segment = Option<Record>;
