// Erased by bindings/rust/erase from crates/tool_work/src/drawn/runs.rt, sha256 f5857cc01fa16f478eddcebac9871a2ca57cfaa0f995a818453afc78cad1d69c.
//! Runs of drawn schedules.

use crate::kit::alloc::Allocator;
use crate::kit::bumpalo::Bump;
use crate::kit::Clone;
use crate::proved::model_asked::config::Config;
use crate::proved::model_asked::event::Event;
use crate::proved::model_asked::reply::Reply;
use crate::proved::model_steps::refusal::Refusal;
use crate::proved::model_steps::view::View;
use crate::proved::text_lines::fault::Fault;
use crate::proved::text_lines::print::put_word;
use crate::proved::text_lines::replies::Replies;
use crate::proved::text_lines::sink::Sink;
use crate::proved::text_worlds::desk::desk::Desk;
use crate::proved::tool_work::drawn::schedule::{draw_one, generator, Schedule};
use crate::proved::tool_work::drawn::tally::Tally;

/// The most bytes of a run's line, its LF included.
const LINE_ROOM: usize = 106;

/// Takes one event and counts it; `Memory` if an allocation failed.
#[inline(always)]
fn take<A: Allocator + Clone>(
    desk: &mut Desk<A>,
    event: Event,
    view: &mut View,
    tally: &mut Tally,
) -> Result<(), Fault> {
    let reply = desk.apply_short(event, view);
    if reply == Reply::Refused(Refusal::NoMemory) {
        return Err(Fault::Memory);
    }
    tally.count(event, reply);
    Ok(())
}

/// The identities from 1 to `ids` begin. It is a function of its own, so that a step clears no room for a participant.
#[inline(never)]
fn take_begins<A: Allocator + Clone>(
    desk: &mut Desk<A>,
    ids: u64,
    tally: &mut Tally,
) -> Result<(), Fault> {
    let mut view = View::new();
    for before in 0..ids {
        take(desk, Event::Begin(before + 1), &mut view, tally)?;
    }
    Ok(())
}

/// Takes the steps, as the generator's words say.
fn take_steps<A: Allocator + Clone>(
    desk: &mut Desk<A>,
    plan: Schedule,
    tally: &mut Tally,
) -> Result<(), Fault> {
    let mut words = generator(plan.seed);
    let mut view = View::new();
    for _done in 0..plan.steps {
        take(
            desk,
            Event::Step(draw_one(&mut words, plan.ids)),
            &mut view,
            tally,
        )?;
    }
    Ok(())
}

/// Plays a schedule on a fresh desk. It is a function of its own, since each way out of a desk's owner drops the desk.
fn play_on<A: Allocator + Clone>(desk: &mut Desk<A>, plan: Schedule) -> Result<Tally, Fault> {
    let mut tally = Tally::new();
    take_begins(desk, plan.ids, &mut tally)?;
    take_steps(desk, plan, &mut tally)?;
    Ok(tally)
}

/// Plays a schedule on a fresh desk in this memory.
fn play_one<A: Allocator + Clone>(
    alloc: A,
    plan: Schedule,
    config: Config,
) -> Result<Tally, Fault> {
    let Ok(mut desk) = Desk::new(alloc, config) else {
        return Err(Fault::Memory);
    };
    let tally = play_on(&mut desk, plan);
    drop(desk);
    tally
}

/// Plays a schedule as `play_one` does, in an arena, and resets the arena.
fn play_in_arena<A: Allocator>(
    arena: &mut Bump<A>,
    plan: Schedule,
    config: Config,
) -> Result<Tally, Fault> {
    let tally = play_one(&*arena, plan, config)?;
    match arena.reset() {
        Ok(()) => Ok(tally),
        Err(_) => Err(Fault::Memory),
    }
}

/// Appends the line of a run.
fn put_run<A: Allocator>(run: u64, tally: Tally, held: &mut Replies<A>) {
    put_word(b"run ", run, held);
    put_word(b" begun ", tally.begun, held);
    put_word(b" named ", tally.named, held);
    put_word(b" spent ", tally.spent, held);
    held.put(b"\n");
}

/// Plays drawn schedules, each on a fresh desk, and writes a line for each run: `run J begun B named N spent S`.
///
/// Run `J`, from 0, has the seed `plan.seed + J` modulo 2^64. `B` participants have begun, `N` were named and `S` were
/// spent. The memory of a run is given back before the next.
///
/// # Errors
///
/// - `Memory`: an allocation failed. No write failed.
/// - `Write`: a write failed or took no byte. A prefix of the lines is written.
pub fn play_schedules<A: Allocator + Clone, W: Sink>(
    alloc: A,
    plan: Schedule,
    runs: u64,
    config: Config,
    writer: &mut W,
) -> Result<(), Fault> {
    let Ok(other) = alloc.clone() else {
        return Err(Fault::Memory);
    };
    let Ok(mut held) = Replies::new(other) else {
        return Err(Fault::Memory);
    };
    let mut arena = Bump::new(alloc);
    for run in 0..runs {
        let next = Schedule {
            seed: plan.seed.wrapping_add(run),
            ids: plan.ids,
            steps: plan.steps,
        };
        let tally = play_in_arena(&mut arena, next, config)?;
        held.make_room(LINE_ROOM, writer)?;
        put_run(run, tally, &mut held);
    }
    held.send(writer)
}

/// Plays a share of the schedules, from number `first` on, and puts the numbers of each run into its place.
///
/// The place of a run is `None` if an allocation failed.
pub(crate) fn play_share<A: Allocator + Clone>(
    alloc: A,
    plan: Schedule,
    config: Config,
    first: u64,
    tallies: &mut [Option<Tally>],
) {
    let mut arena = Bump::new(alloc);
    for i in 0..tallies.len() {
        let next = Schedule {
            seed: plan.seed.wrapping_add(first + i as u64),
            ids: plan.ids,
            steps: plan.steps,
        };
        tallies[i] = play_in_arena(&mut arena, next, config).ok();
    }
}

/// Writes the line of each run from number 0 on, as `play_schedules` does.
///
/// `Memory` if a run has no numbers, `Write` if a write failed or took no byte: then a prefix of the lines is written.
pub(crate) fn write_tallies<A: Allocator, W: Sink>(
    alloc: A,
    tallies: &[Option<Tally>],
    writer: &mut W,
) -> Result<(), Fault> {
    let Ok(mut held) = Replies::new(alloc) else {
        return Err(Fault::Memory);
    };
    for run in 0..tallies.len() {
        let Some(tally) = tallies[run] else {
            return Err(Fault::Memory);
        };
        held.make_room(LINE_ROOM, writer)?;
        put_run(run as u64, tally, &mut held);
    }
    held.send(writer)
}
