// Erased by bindings/rust/erase from crates/text_worlds/src/desk/outcomes.rt, sha256 56d7f50ea99d109d0b63a16e5350236f9deaaa69eca9edeaa02ee733c38c4808.
//! The replies for the outcomes of steps, and of one probe or many.

use crate::proved::model_asked::reply::Reply;
use crate::proved::model_pool::probe::Probe;
use crate::proved::model_renaming::reply::Reply as Step;
use crate::proved::model_steps::refusal::Refusal;

/// The reply for the outcome of a step of renaming.
pub(crate) fn of_step(outcome: Result<Step<()>, Refusal>) -> Reply<()> {
    match outcome {
        Ok(Step::Quiet) => Reply::Quiet,
        Ok(Step::Placed(place)) => Reply::Place(place),
        Ok(Step::Proposed(number)) => Reply::Proposed(number),
        Ok(Step::Saw(())) => Reply::Saw(()),
        Ok(Step::Named(name, ())) => Reply::Named(name, ()),
        Ok(Step::Spent) => Reply::Spent,
        Err(refusal) => Reply::Refused(refusal),
    }
}

/// The reply for the outcome of a probe.
pub(crate) fn of_probe(outcome: Result<Probe, Refusal>) -> Reply<()> {
    match outcome {
        Ok(Probe::Missed) => Reply::Missed,
        Ok(Probe::Got(number)) => Reply::Got(number),
        Err(refusal) => Reply::Refused(refusal),
    }
}

/// The reply for the outcome of probes until a number is had.
pub(crate) fn of_seek(outcome: Result<u32, Refusal>) -> Reply<()> {
    match outcome {
        Ok(number) => Reply::Got(number),
        Err(refusal) => Reply::Refused(refusal),
    }
}
