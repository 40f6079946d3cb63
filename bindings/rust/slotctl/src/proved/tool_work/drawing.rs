// Erased by bindings/rust/erase from crates/tool_work/src/drawing.rt, sha256 3d15a9902bc9cc9fc9fa2687c37c1e45be63db5fd68fae93c81f69c333165103.
//! What is drawn of a seed, to any writer.

use crate::kit::alloc::Global;
use crate::kit::thread::Threads;
use crate::proved::text_lines::fault::Fault;
use crate::proved::text_lines::sink::Sink;
use crate::proved::tool_work::asked::Drawing;
use crate::proved::tool_work::drawn::jobs::play_drawn_by;
use crate::proved::tool_work::drawn::schedule::{draw_schedule, Schedule};

/// Writes what is drawn, and returns 0. It is a schedule, or the lines of runs, which threads share.
///
/// # Errors
///
/// An error leaves a prefix of the drawing written.
///
/// - `Write`: the writer failed or took no byte.
/// - `Memory`: an allocation failed.
pub fn draw_for<T: Threads + Sync, W: Sink>(
    rt: &T,
    alloc: Global,
    drawing: Drawing,
    writer: &mut W,
) -> Result<u8, Fault> {
    let Drawing {
        seed,
        ids,
        steps,
        runs,
        jobs,
        config,
    } = drawing;
    let plan = Schedule { seed, ids, steps };
    if runs == 0 {
        draw_schedule(alloc, plan, writer)?;
    } else {
        play_drawn_by(rt, alloc, jobs, plan, runs, config, writer)?;
    }
    Ok(0)
}
