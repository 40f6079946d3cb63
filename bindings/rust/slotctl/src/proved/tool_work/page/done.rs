// Erased by bindings/rust/erase from crates/tool_work/src/page/done.rt, sha256 32c48072333db73aa545f5bea1350934c9c2370b5cde2e83b883ad368213c37b.
//! What a desk does at an event.

use crate::kit::alloc::{AllocError, Global};
use crate::proved::model_asked::event::Event;
use crate::proved::model_asked::reply::Reply;
use crate::proved::model_steps::refusal::Refusal;
use crate::proved::model_steps::view::View;
use crate::proved::text_records::line::Line;
use crate::proved::text_records::reported::Reported;
use crate::proved::text_worlds::desk::coming::Coming;
use crate::proved::text_worlds::desk::desk::Desk;
use crate::proved::tool_work::page::access::held_at;
use crate::proved::tool_work::page::standing::Standing;

/// What a desk does at an event.
#[derive(Clone, Copy, Debug)]
pub struct Done {
    /// What it answers.
    pub reply: Reply<View>,
    /// The access that is made by it.
    pub access: Option<Coming>,
    /// What then stands in the register that was reached: a word, or the proposal in a segment.
    pub held: Option<u64>,
    /// Where whose event it is then stands.
    pub standing: Standing,
    /// How many numbers the pool then has.
    pub size: u64,
}

/// Who an event is of; a widening is nobody's, and 0 is nobody.
pub(crate) fn identity_of(event: Event) -> u64 {
    match event {
        Event::Begin(id) => id,
        Event::Step(id) => id,
        Event::Enter(id) => id,
        Event::Probe(id) => id,
        Event::Seek(id) => id,
        Event::Leave(id) => id,
        Event::Put(id, _) => id,
        Event::Get(id) => id,
        Event::Widen(_) => 0,
    }
}

/// Whether an event is reported to be refused.
pub(crate) fn is_refused(reported: &Reported) -> bool {
    matches!(reported, Reported::Refused(_))
}

/// The access that an event makes to a register of splitters or segments: a step alone makes one.
fn access_at(desk: &Desk<Global>, event: Event) -> Option<Coming> {
    match event {
        Event::Step(id) => desk.coming(id),
        Event::Begin(_) => None,
        Event::Enter(_) => None,
        Event::Probe(_) => None,
        Event::Seek(_) => None,
        Event::Leave(_) => None,
        Event::Put(_, _) => None,
        Event::Get(_) => None,
        Event::Widen(_) => None,
    }
}

/// The access that was made at a line.
pub(crate) fn access_in(done: &Option<Done>) -> Option<Coming> {
    match done {
        None => None,
        Some(done) => done.access,
    }
}

/// Applies an event. An error where a growth was refused, with the desk unchanged.
fn answered(desk: &mut Desk<Global>, event: Event) -> Result<Reply<View>, AllocError> {
    match desk.apply(event) {
        Reply::Refused(Refusal::NoMemory) => Err(AllocError),
        reply => Ok(reply),
    }
}

/// Replays a line, and keeps what the desk did at it, which is nothing where the line tells a refusal. An error where a growth was
/// refused; then the desk is of no more use.
pub(crate) fn replay(
    desk: &mut Desk<Global>,
    line: &Line,
    done: &mut Option<Done>,
) -> Result<(), AllocError> {
    if is_refused(&line.reported) {
        *done = None;
        return Ok(());
    }
    let access = access_at(desk, line.event);
    let reply = answered(desk, line.event)?;
    *done = Some(Done {
        reply,
        access,
        held: held_at(desk, access),
        standing: Standing::on(desk, identity_of(line.event)),
        size: desk.slots().pool().size(),
    });
    Ok(())
}
