// Erased by bindings/rust/erase from crates/text_worlds/src/playing.rt, sha256 ace09b6438d014675713a2ef553cbf8d2a93c4fa29838bff6237a41dbac18e20.
//! Runs of a world, from a reader to a writer.

use crate::kit::alloc::Allocator;
use crate::kit::Clone;
use crate::proved::model_asked::config::Config;
use crate::proved::model_asked::kind::WorldKind;
use crate::proved::model_splitter::grid::world::GridWorld;
use crate::proved::model_splitter::world::SplitterWorld;
use crate::proved::text_lines::fault::Fault;
use crate::proved::text_lines::sink::Sink;
use crate::proved::text_player::playing::play_on;
use crate::proved::text_player::source::Source;
use crate::proved::text_player::summary::Summary;
use crate::proved::text_worlds::desk::desk::Desk;
use crate::proved::text_worlds::world::{Unshared, World};

/// Plays the commands of a reader, one a line, in a fresh world of the configuration, and writes the replies, one a
/// line.
///
/// The run ends at the end of the input or at `quit`. The replies to what one read gave are written before the next
/// read. All memory is allocated before the first read, except for nodes of a tree. The first three clauses are for one
/// kind of world each. The last is for every world.
///
/// # Errors
///
/// - `Memory`: an allocation failed. Nothing was read and nothing was written.
/// - `Read`: a read failed, or 2^40 reads were made. The replies to all whole lines are written, and a cut line was not
///   run.
/// - `Write`: a write failed or took no byte. A prefix of the replies is written.
pub fn play<A: Allocator + Clone, R: Source, W: Sink>(
    alloc: A,
    reader: &mut R,
    writer: &mut W,
    config: Config,
) -> Result<Summary, Fault> {
    match config.world {
        WorldKind::Splitter => {
            play_in::<SplitterWorld<A>, _, A, R, W>(alloc, &Unshared, reader, writer, config)
        }
        WorldKind::Grid => {
            play_in::<GridWorld<A>, _, A, R, W>(alloc, &Unshared, reader, writer, config)
        }
        WorldKind::Rename | WorldKind::Tree | WorldKind::Wide => {
            play_in::<Desk<A>, _, A, R, W>(alloc, &Unshared, reader, writer, config)
        }
    }
}

/// A fresh world of a configuration; `Memory` if an allocation failed.
pub(crate) fn opened<D: World<A, H>, H, A: Allocator + Clone>(
    alloc: &A,
    config: Config,
) -> Result<D, Fault> {
    let Ok(other) = alloc.clone() else {
        return Err(Fault::Memory);
    };
    match D::open(other, config) {
        Ok(world) => Ok(world),
        Err(_) => Err(Fault::Memory),
    }
}

/// Plays in a fresh world of any type, as `play` does.
///
/// It is a function of its own, so that `play` drops no world, which costs the prover time for each type.
///
/// # Errors
///
/// Those of `play`.
pub fn play_in<D: World<A, H>, H, A: Allocator + Clone, R: Source, W: Sink>(
    alloc: A,
    rt: &H,
    reader: &mut R,
    writer: &mut W,
    config: Config,
) -> Result<Summary, Fault> {
    let mut world = opened::<D, H, A>(&alloc, config)?;
    play_on(alloc, rt, &mut world, config.world, reader, writer)
}
