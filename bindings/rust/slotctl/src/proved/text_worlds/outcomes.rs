// Erased by bindings/rust/erase from crates/text_worlds/src/outcomes.rt, sha256 1ae7755838f962004cdbba1d86ebe8f99f0b062ae17ad7671f005aee2b7f2e67.
//! The replies for the outcomes of a splitter's and a grid's steps.

use crate::proved::model_asked::reply::Reply;
use crate::proved::model_splitter::way::Way;
use crate::proved::model_steps::place::Place;
use crate::proved::model_steps::refusal::Refusal;

/// The reply for the outcome of a step of a visit.
pub(crate) fn visit_reply(outcome: Result<Option<Way>, Refusal>) -> Reply<()> {
    match outcome {
        Ok(None) => Reply::Quiet,
        Ok(Some(Way::Stop)) => Reply::Stop,
        Ok(Some(Way::Right)) => Reply::Right,
        Ok(Some(Way::Down)) => Reply::Down,
        Err(refusal) => Reply::Refused(refusal),
    }
}

/// The reply for the outcome of a step of a walk.
pub(crate) fn walk_reply(outcome: Result<Option<Place>, Refusal>) -> Reply<()> {
    match outcome {
        Ok(None) => Reply::Quiet,
        Ok(Some(place)) => Reply::Place(place),
        Err(refusal) => Reply::Refused(refusal),
    }
}
