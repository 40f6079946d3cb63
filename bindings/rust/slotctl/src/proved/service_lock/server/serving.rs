// Erased by bindings/rust/erase from crates/service_lock/src/server/serving.rt, sha256 38b83a887b3f0af3d9a0f078ea0c7c99f48da3aab00a67af13ee75d95293ff56.
//! The command language over any service.

use crate::kit::alloc::Allocator;
use crate::kit::Clone;
use crate::proved::model_asked::kind::WorldKind;
use crate::proved::text_lines::fault::Fault;
use crate::proved::text_lines::sink::Sink;
use crate::proved::text_player::playing::play_on;
use crate::proved::text_player::service::Service;
use crate::proved::text_player::source::Source;
use crate::proved::text_player::summary::Summary;

/// Plays the commands of a reader by a service, one a line, and writes the replies, one a line.
///
/// It has the theorem of `play`, in the command language of the worlds that give names. The replies to what one read
/// gave are written before the next read.
///
/// # Errors
///
/// - `Memory`: an allocation failed. Nothing was read or written, and the service is unchanged.
/// - `Read`: a read failed, or 2^40 reads were made.
/// - `Write`: a write failed or took no byte.
pub fn serve_one<R, A: Allocator + Clone, I: Source, O: Sink, S: Service<R>>(
    rt: &R,
    alloc: A,
    reader: &mut I,
    writer: &mut O,
    service: &mut S,
) -> Result<Summary, Fault> {
    play_on(alloc, rt, service, WorldKind::Rename, reader, writer)
}
