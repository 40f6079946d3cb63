// Erased by bindings/rust/erase from crates/text_player/src/playing.rt, sha256 20302c9735e44d46caf466d91b3ed43f9d14647246eb36cc0b72cfa90bf7cf73.
//! Runs of a service, from a reader to a writer.

use crate::kit::alloc::Allocator;
use crate::kit::Clone;
use crate::kit::Vec;
use crate::proved::model_asked::kind::WorldKind;
use crate::proved::text_lines::fault::Fault;
use crate::proved::text_lines::sink::Sink;
use crate::proved::text_player::as_replies::AsReplies;
use crate::proved::text_player::form::Form;
use crate::proved::text_player::player::Player;
use crate::proved::text_player::service::Service;
use crate::proved::text_player::source::Source;
use crate::proved::text_player::summary::Summary;

/// The most bytes of one read.
pub const READ_BYTES: usize = 65_536;

/// The most reads of one run: 2^40.
pub const MOST_READS: u64 = 1_099_511_627_776;

/// Plays on a service the commands that a reader gives, a line each, and writes the replies, a line each.
///
/// The run ends at the end of the input or at `quit`, when the text of all replies is written. It writes the replies to
/// what one read gave before the next read. It allocates before the first read alone, except for what the service
/// allocates.
///
/// The service knows each request that a line of this kind of world means.
///
/// # Errors
///
/// - `Fault::Memory`: an allocation failed. Nothing was read or written.
/// - `Fault::Read`: a read failed, or 2^40 reads were made. The answers to all whole lines are written, and a cut line
///   was not run.
/// - `Fault::Write`: a write failed or took nothing. A prefix of the text is written.
pub fn play_on<H, D: Service<H>, A: Allocator + Clone, R: Source, W: Sink>(
    alloc: A,
    rt: &H,
    world: &mut D,
    kind: WorldKind,
    reader: &mut R,
    writer: &mut W,
) -> Result<Summary, Fault> {
    let (mut player, mut chunk) = fresh::<A, AsReplies>(alloc, kind)?;
    run(rt, world, &mut player, &mut chunk, reader, writer)
}

/// Makes a player that has read nothing, and room for the bytes of one read. The error is `Fault::Memory`.
pub(crate) fn fresh<A: Allocator + Clone, F: Form>(
    alloc: A,
    kind: WorldKind,
) -> Result<(Player<A, F>, Vec<u8, A>), Fault> {
    let Ok(other) = alloc.clone() else {
        return Err(Fault::Memory);
    };
    let Ok(chunk) = Vec::from_elem(other, 0, READ_BYTES) else {
        return Err(Fault::Memory);
    };
    match Player::new(alloc, kind) {
        Ok(player) => Ok((player, chunk)),
        Err(_) => Err(Fault::Memory),
    }
}

/// Reads to the end of the input or to `quit`, and writes the text of the turns after each read.
pub(crate) fn run<H, D: Service<H>, A: Allocator, F: Form, R: Source, W: Sink>(
    rt: &H,
    world: &mut D,
    player: &mut Player<A, F>,
    chunk: &mut [u8],
    reader: &mut R,
    writer: &mut W,
) -> Result<Summary, Fault> {
    for _reads in 0..MOST_READS {
        let count = match reader.read_once(chunk) {
            Ok(count) => count,
            Err(_) => return Err(Fault::Read),
        };
        if count == 0 {
            player.finish(rt, world, writer)?;
            return Ok(player.summary());
        }
        player.feed(rt, world, &chunk[..count], writer)?;
        if player.is_over() {
            return Ok(player.summary());
        }
    }
    Err(Fault::Read)
}
