// Erased by bindings/rust/erase from crates/tool_work/src/drawn/jobs.rt, sha256 8344ad29f3c4b367fb9bd5f366a4e162360fcd8249b83e4fe1364e1d80a22d7e.
//! Drawn runs by many threads.

use crate::kit::alloc::Global;
use crate::kit::thread;
use crate::kit::thread::Threads;
use crate::kit::Vec;
use crate::proved::model_asked::config::Config;
use crate::proved::text_lines::fault::Fault;
use crate::proved::text_lines::sink::Sink;
use crate::proved::tool_work::drawn::runs::{play_schedules, play_share, write_tallies};
use crate::proved::tool_work::drawn::schedule::Schedule;
use crate::proved::tool_work::drawn::tally::Tally;

/// The most threads.
pub const MOST_JOBS: u64 = 64;

// The number of threads for `asked`: if that is 0, as many as processors, or one if their number is not known.
fn jobs_for<R: Threads>(rt: &R, asked: u64) -> u64 {
    let jobs = match asked {
        0 => match thread::available_parallelism(rt) {
            Ok(count) => count.get() as u64,
            Err(_) => 1,
        },
        _ => asked,
    };
    jobs.min(MOST_JOBS)
}

// Plays drawn schedules, one for each of these places, and puts the numbers of each into its place. Each thread has `share` places in a row.
fn play_shares<R: Threads + Sync>(
    rt: &R,
    alloc: Global,
    share: usize,
    plan: Schedule,
    config: Config,
    tallies: &mut [Option<Tally>],
) {
    thread::for_each_chunk_mut(rt, tallies, share, &|first, part| {
        play_share(alloc, plan, config, first as u64, part)
    });
}

/// Plays drawn schedules and writes their lines, as `play_schedules` does, with the runs shared among `jobs` threads.
///
/// There are at most 64 threads. If `jobs` is 0, there are as many as processors. Each thread plays consecutive runs in
/// memory of its own. Not proved: how many threads there are, and that they run at the same time.
///
/// # Errors
///
/// - `Memory`: an allocation failed. No write failed.
/// - `Write`: a write failed or took no byte. A prefix of the lines is written.
pub fn play_drawn_by<R: Threads + Sync, W: Sink>(
    rt: &R,
    alloc: Global,
    jobs: u64,
    plan: Schedule,
    runs: u64,
    config: Config,
    writer: &mut W,
) -> Result<(), Fault> {
    let jobs = jobs_for(rt, jobs);
    if jobs == 1 {
        return play_schedules(alloc, plan, runs, config, writer);
    }
    let Ok(mut tallies) = Vec::from_elem(alloc, None, runs as usize) else {
        return Err(Fault::Memory);
    };
    let share = (runs.saturating_sub(1) / jobs) as usize + 1;
    play_shares(rt, alloc, share, plan, config, tallies.as_mut_slice());
    write_tallies(alloc, tallies.as_slice(), writer)
}
