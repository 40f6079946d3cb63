// Erased by bindings/rust/erase from crates/text_player/src/recording.rt, sha256 53e963e2835da67a4f9c894f0f78801601d19ed73dc4501c07bda9339599cc5e.
//! Runs that write their record.

use crate::kit::alloc::Allocator;
use crate::kit::Clone;
use crate::proved::model_asked::config::Config;
use crate::proved::text_lines::fault::Fault;
use crate::proved::text_lines::sink::Sink;
use crate::proved::text_player::as_record::AsRecord;
use crate::proved::text_player::player::Player;
use crate::proved::text_player::playing::{fresh, run};
use crate::proved::text_player::service::Service;
use crate::proved::text_player::source::Source;

/// Plays on a service as `play_on` does, and writes the record of the run in place of the replies.
///
/// It writes the header of the config before the first read, and then a line for each event with its reply.
///
/// # Errors
///
/// Those of `play_on`. If it cannot write the whole header, the error is `Fault::Write` and nothing was read.
pub fn record_on<H, D: Service<H>, A: Allocator + Clone, R: Source, W: Sink>(
    alloc: A,
    rt: &H,
    world: &mut D,
    config: Config,
    reader: &mut R,
    writer: &mut W,
) -> Result<(), Fault> {
    let (mut player, mut chunk) = fresh::<A, AsRecord>(alloc, config.world)?;
    record_run(rt, world, &mut player, &mut chunk, config, reader, writer)
}

// Writes the header, and then the lines of what it reads to the end of the input or to `quit`.
fn record_run<H, D: Service<H>, A: Allocator, R: Source, W: Sink>(
    rt: &H,
    world: &mut D,
    player: &mut Player<A, AsRecord>,
    chunk: &mut [u8],
    config: Config,
    reader: &mut R,
    writer: &mut W,
) -> Result<(), Fault> {
    player.write_header(config, writer)?;
    run(rt, world, player, chunk, reader, writer)?;
    Ok(())
}
