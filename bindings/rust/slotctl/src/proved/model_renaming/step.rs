// Erased by bindings/rust/erase from crates/model_renaming/src/step.rt, sha256 793318d9d3037270170174b326395e615e5c99c1b8097c4bef75c9887ee8d654.
//! A step of a participant whose round may go on: what it does to the snapshot object and to the round.

use crate::kit::alloc::Allocator;
use crate::proved::model_renaming::places::RenamePlaces;
use crate::proved::model_renaming::reply::Reply;
use crate::proved::model_renaming::round::{Round, Wish};
use crate::proved::model_snapshot::client::SnapReply;
use crate::proved::model_snapshot::world::SnapWorld;
use crate::proved::model_steps::participant::Participant;
use crate::proved::model_steps::refusal::{NoMemory, Refusal};
use crate::proved::model_steps::view::View;

/// Begins the operation of the snapshot object that a round needs, with no access. It never fails, since nothing of the
/// identity is pending then.
pub(crate) fn ask<W: RenamePlaces<A>, A: Allocator>(snap: &mut SnapWorld<W, A>, id: u64, wish: Wish)
where
    W::Walker: Copy,
    W::Walk: Copy,
{
    let _asked = match wish {
        Wish::Nothing => Ok(()),
        Wish::Update(number) => snap.update(id, number),
        Wish::Scan => snap.scan(id),
    };
}

/// Takes the reply of the snapshot object: begins what the round needs next, updates the round, and returns the step's
/// reply.
///
/// It is a function of its own, so that a step after which nothing follows clears no room for a view.
#[inline(never)]
fn follow<W: RenamePlaces<A>, A: Allocator>(
    snap: &mut SnapWorld<W, A>,
    participant: &mut Participant<Round>,
    reported: SnapReply,
    limit: u64,
    view: &mut View,
) -> Reply<()>
where
    W::Walker: Copy,
    W::Walk: Copy,
{
    let id = participant.identity;
    let follow = participant.program.followed(id, reported, limit);
    ask(snap, id, follow.wish);
    participant.program = follow.round;
    participant.ended = false;
    follow.reply.shorten(view)
}

/// Makes a step that is none of a walk, and takes its reply. It is a function of its own, so that other steps clear no
/// room for a segment.
#[inline(never)]
fn take_other<W: RenamePlaces<A>, A: Allocator>(
    snap: &mut SnapWorld<W, A>,
    participant: &mut Participant<Round>,
    limit: u64,
    view: &mut View,
) -> Result<Reply<()>, Refusal>
where
    W::Walker: Copy,
    W::Walk: Copy,
{
    match snap.step(participant.identity) {
        Ok(reported) => Ok(follow(snap, participant, reported, limit, view)),
        Err(refusal) => Err(refusal),
    }
}

/// Makes a step that is no read of a scan that goes on, and takes its reply. It is a function of its own, as
/// `take_other` is.
#[inline(never)]
fn take_slow<W: RenamePlaces<A>, A: Allocator>(
    snap: &mut SnapWorld<W, A>,
    participant: &mut Participant<Round>,
    limit: u64,
    view: &mut View,
) -> Result<Reply<()>, Refusal>
where
    W::Walker: Copy,
    W::Walk: Copy,
{
    match snap.walk_on(participant.identity) {
        Ok(None) => take_other(snap, participant, limit, view),
        Ok(Some(note)) if note.is_quiet() => {
            participant.ended = false;
            Ok(Reply::Quiet)
        }
        Ok(Some(note)) => Ok(follow(
            snap,
            participant,
            SnapReply::of_way(note),
            limit,
            view,
        )),
        Err(NoMemory) => Err(Refusal::NoMemory),
    }
}

/// Makes a step of a participant whose round may go on, and takes its reply. One that walks to its place reads in no
/// scan, so it is not asked for a read.
#[inline(always)]
pub(crate) fn take<W: RenamePlaces<A>, A: Allocator>(
    snap: &mut SnapWorld<W, A>,
    participant: &mut Participant<Round>,
    limit: u64,
    view: &mut View,
) -> Result<Reply<()>, Refusal>
where
    W::Walker: Copy,
    W::Walk: Copy,
{
    if participant.program.is_placing() {
        return take_slow(snap, participant, limit, view);
    }
    if !snap.read_on(participant.identity) {
        return take_slow(snap, participant, limit, view);
    }
    participant.ended = false;
    Ok(Reply::Quiet)
}
