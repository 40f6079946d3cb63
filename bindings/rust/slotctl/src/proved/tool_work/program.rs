// Erased by bindings/rust/erase from crates/tool_work/src/program.rt, sha256 b451bec1b86c199ed81f22da52a69631983eefd1830b68dc8f2fe3e1d3afa61a.
//! The program, over any streams.

use crate::kit::alloc::Global;
use crate::kit::convert::AsStr;
use crate::kit::io::Write;
use crate::kit::thread::Threads;
use crate::proved::text_lines::fault::Fault;
use crate::proved::text_lines::sink::Sink;
use crate::proved::text_player::source::Source;
use crate::proved::text_worlds::playing::play;
use crate::proved::text_worlds::recording::record;
use crate::proved::tool_work::asked::{Ask, Playing};
use crate::proved::tool_work::checking::check_for;
use crate::proved::tool_work::drawing::draw_for;
use crate::proved::tool_work::failure::Failure;
use crate::proved::tool_work::migrating::migrate_for;
use crate::proved::tool_work::misuse::Misuse;
use crate::proved::tool_work::outcome::Outcome;
use crate::proved::tool_work::showing::{after_showing, show_for};
use crate::proved::tool_work::words::ask;

/// Does what the words of a command line ask for, and returns the status of the program. The first word is the program's name.
///
/// - 0: it was done, or help was asked for.
/// - 1: a verdict is other than `Yes`.
/// - 2: the words are refused.
/// - 3: a read, a write or an allocation failed.
///
/// Help and what is done go to `output`, each other text to `errors`. Four commands are left to the caller, and returned: to race, to
/// serve, to host and to tell who holds numbers.
pub fn program<'a, T: Threads + Sync, S: AsStr, R: Source, W: Sink, E: Write>(
    rt: &T,
    alloc: Global,
    words: &'a [S],
    input: &mut R,
    output: &mut W,
    errors: &mut E,
) -> Outcome<'a> {
    match done(rt, alloc, words, input, output) {
        Ok(outcome) => outcome,
        Err(failure) => Outcome::Ended(report(failure, output, errors)),
    }
}

/// Does what the words ask for, but to race, to serve, to host and to tell who holds numbers: these are returned.
///
/// - `play` writes the replies to the commands that it reads, or with `--record` the record of the run.
/// - `check` reads to the end and writes a verdict.
/// - `migrate` reads to the end and writes the record again in version 2.
/// - `show` reads to the end and writes the page of a record.
/// - `draw` reads nothing and writes a schedule or runs.
///
/// # Errors
///
/// - `Failure::Misuse`: the words ask for nothing. Nothing is read or written.
/// - `Fault::Read`: the reader failed, or was read 2^40 times.
/// - `Fault::Memory`: an allocation failed. `check`, `migrate` and `play` have written nothing then, and `play` has read nothing.
/// - `Fault::Write`: the writer failed or took no byte. A prefix is written.
/// - `Failure::No` and `Failure::BadRecord`: the verdict of `show` is other than `Yes`. Nothing is written.
pub fn done<'a, T: Threads + Sync, S: AsStr, R: Source, W: Sink>(
    rt: &T,
    alloc: Global,
    words: &'a [S],
    input: &mut R,
    output: &mut W,
) -> Result<Outcome<'a>, Failure> {
    let asked = match ask(alloc, words) {
        Ok(asked) => asked,
        Err(misuse) => return Err(Failure::Misuse(misuse)),
    };
    match asked {
        Ask::Play(playing) => after(work(rt, alloc, Ask::Play(playing), input, output)),
        Ask::Check => after(work(rt, alloc, Ask::Check, input, output)),
        Ask::Migrate => after(work(rt, alloc, Ask::Migrate, input, output)),
        Ask::Show(showing) => after_showing(show_for(alloc, showing, input, output)),
        Ask::Draw(drawing) => after(work(rt, alloc, Ask::Draw(drawing), input, output)),
        Ask::Race(racing) => Ok(Outcome::Race(racing)),
        Ask::Serve(serving) => Ok(Outcome::Serve(serving)),
        Ask::Host(hosting) => Ok(Outcome::Host(hosting)),
        Ask::Held => Ok(Outcome::Held),
    }
}

/// Plays, checks, migrates or draws over any reader and writer, as was asked for. Returns the status: 1 if a verdict is other
/// than `Yes`, otherwise 0.
///
/// # Errors
///
/// - `Fault::Read`: the reader failed, or was read 2^40 times.
/// - `Fault::Memory`: an allocation failed. `check`, `migrate` and `play` have written nothing then, and `play` has read nothing.
/// - `Fault::Write`: the writer failed or took no byte. A prefix is written.
pub fn work<'a, T: Threads + Sync, R: Source, W: Sink>(
    rt: &T,
    alloc: Global,
    ask: Ask<'a>,
    input: &mut R,
    output: &mut W,
) -> Result<u8, Fault> {
    match ask {
        Ask::Play(Playing { config, recorded }) => {
            if recorded {
                status_of_run(record(alloc, input, output, config))
            } else {
                status_of_run(play(alloc, input, output, config))
            }
        }
        Ask::Check => check_for(alloc, input, output),
        Ask::Migrate => migrate_for(alloc, input, output),
        Ask::Draw(drawing) => draw_for(rt, alloc, drawing, output),
        Ask::Show(_) => unreachable!(),
        Ask::Race(_) => unreachable!(),
        Ask::Serve(_) => unreachable!(),
        Ask::Host(_) => unreachable!(),
        Ask::Held => unreachable!(),
    }
}

// Returns how the program ends once this was done: with a status, or by a fault.
fn after<'a>(status: Result<u8, Fault>) -> Result<Outcome<'a>, Failure> {
    match status {
        Ok(status) => Ok(Outcome::Ended(status)),
        Err(fault) => Err(Failure::Fault(fault)),
    }
}

// Returns status 0 once a run was played, or its fault.
fn status_of_run<T>(run: Result<T, Fault>) -> Result<u8, Fault> {
    match run {
        Ok(_) => Ok(0),
        Err(fault) => Err(fault),
    }
}

/// Writes the text of a failure, and returns the status. Help goes to `output`, each other text to `errors`.
///
/// If `output` does not take the help, the status is 3.
pub fn report<W: Write, E: Write>(failure: Failure, output: &mut W, errors: &mut E) -> u8 {
    let failure = match failure {
        Failure::Misuse(Misuse::Help(text)) => match output.write_all(text.as_bytes()) {
            Ok(()) => return 0,
            Err(_) => Failure::Fault(Fault::Write),
        },
        other => other,
    };
    // A standard error that takes no text leaves the status alone to tell.
    let _ = write!(errors, "{failure}");
    failure.status()
}
