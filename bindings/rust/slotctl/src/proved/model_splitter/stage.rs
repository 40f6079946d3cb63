// Erased by bindings/rust/erase from crates/model_splitter/src/stage.rt, sha256 59f8de9df75d909f744158f6d04e77d3c74a24214caae7fe64f153591e57924b.
//! The last access of a visit.

use crate::proved::model_splitter::way::Way;
use crate::proved::model_steps::place::Place;

/// The last access that a visit to a splitter made.
#[derive(Clone, Copy, Debug, PartialEq, Eq)]
pub enum VisitStage {
    /// It has made no access.
    Outside,
    /// It wrote its identity into X.
    WroteX,
    /// It read Y as clear.
    SawClear,
    /// It set Y.
    WroteY,
    /// The visit has ended.
    Gone(Way),
}

impl VisitStage {
    /// Returns `door` if the visit has stopped there, as the place of its walk; otherwise `None`.
    pub fn place_at(self, door: Place) -> Option<Place> {
        match self {
            VisitStage::Gone(Way::Stop) => Some(door),
            VisitStage::Gone(Way::Right) | VisitStage::Gone(Way::Down) => None,
            VisitStage::Outside
            | VisitStage::WroteX
            | VisitStage::SawClear
            | VisitStage::WroteY => None,
        }
    }
}
