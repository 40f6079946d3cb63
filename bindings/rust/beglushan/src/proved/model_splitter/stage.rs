// Erased by bindings/rust/erase from crates/model_splitter/src/stage.rt, sha256 59f8de9df75d909f744158f6d04e77d3c74a24214caae7fe64f153591e57924b.
//! The last access of a visit.

use crate::proved::model_splitter::way::Way;

/// The last access that a visit to a splitter made.
#[derive(Clone, Copy, Debug, PartialEq, Eq)]
pub enum VisitStage {
    /// It has made no access.
    Outside,
    /// It wrote its identity into X.
    WroteX,
    /// It read Y as clear.
    SawClear,
    /// It set Y.
    WroteY,
    /// The visit has ended.
    Gone(Way),
}
