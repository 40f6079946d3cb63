// Erased by bindings/rust/erase from crates/tool_work/src/drawn/schedule.rt, sha256 9f82902c92289926d99115a852f50d5e4fac447745d3cfa3b53964484e8b95c7.
//! Schedules that are drawn.

use crate::kit::alloc::Allocator;
use crate::kit::rand_core::utils::NextWord;
use crate::kit::rand_core::SeedableRng;
use crate::kit::rand_pcg::Lcg64Xsh32;
use crate::proved::model_asked::event::Event;
use crate::proved::text_lines::events::{print_event, EVENT_ROOM};
use crate::proved::text_lines::fault::Fault;
use crate::proved::text_lines::replies::Replies;
use crate::proved::text_lines::sink::Sink;

/// The most bytes of an event's line, its LF included.
const LINE_ROOM: usize = EVENT_ROOM + 1;

/// A drawn schedule: the identities from 1 to `ids` begin, and then `steps` steps are taken.
///
/// Each step is that of the identity which the next word of the seed's generator gives.
#[derive(Clone, Copy, Debug, PartialEq, Eq)]
pub struct Schedule {
    /// The seed of the generator.
    pub seed: u64,
    /// The number of identities that begin, from 1 to 64.
    pub ids: u64,
    /// The number of steps.
    pub steps: u64,
}

/// The generator of a seed.
pub(crate) fn generator(seed: u64) -> Lcg64Xsh32 {
    Lcg64Xsh32::seed_from_u64(seed)
}

/// The identity that steps next, by the generator's next word.
pub(crate) fn draw_one(words: &mut Lcg64Xsh32, ids: u64) -> u64 {
    1 + u64::from(words.next_word()) % ids
}

/// Appends the line of an event. If it has no room, what is held is written first.
fn put_line<A: Allocator, W: Sink>(
    event: Event,
    held: &mut Replies<A>,
    writer: &mut W,
) -> Result<(), Fault> {
    held.make_room(LINE_ROOM, writer)?;
    print_event(event, held);
    held.put(b"\n");
    Ok(())
}

/// Appends the lines of the participants that begin.
fn draw_begins<A: Allocator, W: Sink>(
    ids: u64,
    held: &mut Replies<A>,
    writer: &mut W,
) -> Result<(), Fault> {
    for before in 0..ids {
        put_line(Event::Begin(before + 1), held, writer)?;
    }
    Ok(())
}

/// Appends the lines of the steps.
fn draw_steps<A: Allocator, W: Sink>(
    plan: Schedule,
    held: &mut Replies<A>,
    writer: &mut W,
) -> Result<(), Fault> {
    let mut words = generator(plan.seed);
    for _done in 0..plan.steps {
        put_line(Event::Step(draw_one(&mut words, plan.ids)), held, writer)?;
    }
    Ok(())
}

/// Writes a schedule: `begin 1` to `begin ids`, and then `steps` lines `step I`.
///
/// `I` is one more than the next word of the generator `Lcg64Xsh32` of the seed, modulo `ids`.
///
/// # Errors
///
/// - `Memory`: an allocation failed. Nothing was written.
/// - `Write`: a write failed or took no byte. A prefix of the text is written.
pub fn draw_schedule<A: Allocator, W: Sink>(
    alloc: A,
    plan: Schedule,
    writer: &mut W,
) -> Result<(), Fault> {
    let Ok(mut held) = Replies::new(alloc) else {
        return Err(Fault::Memory);
    };
    draw_begins(plan.ids, &mut held, writer)?;
    draw_steps(plan, &mut held, writer)?;
    held.send(writer)
}
