// Erased by bindings/rust/erase from crates/text_worlds/src/recording.rt, sha256 694fae8098ed1cb08206cfcd7450b0b6d1db69de3ed32ec43e51d983d51589f5.
//! Runs of a world whose record is written.

use crate::kit::alloc::Allocator;
use crate::kit::Clone;
use crate::proved::model_asked::config::Config;
use crate::proved::text_lines::fault::Fault;
use crate::proved::text_lines::sink::Sink;
use crate::proved::text_player::recording::record_on;
use crate::proved::text_player::source::Source;
use crate::proved::text_worlds::desk::desk::Desk;
use crate::proved::text_worlds::playing::opened;
use crate::proved::text_worlds::world::Unshared;

/// Plays the commands of a reader as `play` does, and writes the record of the run in place of the replies.
///
/// The record is a header, which is written before the first read, and a line for each event with its reply.
///
/// # Errors
///
/// Those of `play`. If the header cannot be written, the error is `Write` and nothing was read.
pub fn record<A: Allocator + Clone, R: Source, W: Sink>(
    alloc: A,
    reader: &mut R,
    writer: &mut W,
    config: Config,
) -> Result<(), Fault> {
    let mut world = opened::<Desk<A>, Unshared, A>(&alloc, config)?;
    let recorded = record_on(alloc, &Unshared, &mut world, config, reader, writer);
    // by a call, since otherwise it is dropped at each way out
    drop(world);
    recorded
}
