// Erased by bindings/rust/erase from crates/service_journal/src/opening.rt, sha256 b6a41bacaf04e3eb105fa05802c445b71691e037e29b22bfd4fd022a7779932f.
//! From the bytes of a journal to the hall whose record they are.

use crate::kit::alloc::{AllocError, Global};
use crate::kit::memchr::memchr;
use crate::proved::model_asked::config::Config;
use crate::proved::model_asked::event::Event;
use crate::proved::model_asked::kind::WorldKind;
use crate::proved::model_asked::reply::Reply;
use crate::proved::model_steps::refusal::{NoMemory, Refusal};
use crate::proved::model_steps::view::View;
use crate::proved::service_hall::hall::Hall;
use crate::proved::service_journal::disk::DiskFault;
use crate::proved::service_journal::write_ahead::applied;
use crate::proved::text_checker::record::check;
use crate::proved::text_checker::verdict::Verdict;
use crate::proved::text_lines::front::after_front;
use crate::proved::text_lines::laws::law_of_lines;
use crate::proved::text_lines::replies::Replies;
use crate::proved::text_player::as_record::AsRecord;
use crate::proved::text_player::form::Form;
use crate::proved::text_records::header::Version;
use crate::proved::text_records::record_line::read_line;

/// Why `Journal::open` failed. The header is line 1.
#[derive(Clone, Copy, Debug, PartialEq, Eq)]
pub enum OpenFault {
    /// The disk failed.
    Disk(DiskFault),
    /// An allocation failed.
    NoMemory,
    /// The whole lines are no record of a run: `check` returns this verdict.
    Judged(Verdict),
    /// They are a record of another config, or of another version.
    OtherConfig,
    /// No hall writes the line of this number: it is a refusal, has another spelling or the reply of another object, or is no part of a
    /// line at all.
    OtherLine(u64),
    /// The config's world gives no names.
    NoNames,
}

impl From<AllocError> for OpenFault {
    fn from(_refused: AllocError) -> OpenFault {
        OpenFault::NoMemory
    }
}

impl From<NoMemory> for OpenFault {
    fn from(_refused: NoMemory) -> OpenFault {
        OpenFault::NoMemory
    }
}

impl From<DiskFault> for OpenFault {
    fn from(fault: DiskFault) -> OpenFault {
        OpenFault::Disk(fault)
    }
}

/// How many bytes stand up to the last LF, with it.
pub(crate) fn whole_length(bytes: &[u8]) -> usize {
    law_of_lines();
    let mut end = bytes.len();
    while 0 < end && bytes[end - 1] != b'\n' {
        end -= 1;
    }
    end
}

/// The event that the first of some lines asks for; `None` where that is no line. An error where a growth was refused.
fn next_event(alloc: Global, kind: WorldKind, lines: &[u8]) -> Result<Option<Event>, AllocError> {
    let Some(end) = memchr(b'\n', lines) else {
        return Ok(None);
    };
    match read_line(alloc, kind, Version::Two, &lines[..end])? {
        Some(line) => Ok(Some(line.event)),
        None => Ok(None),
    }
}

/// Applies the event of the first of some lines, which has to be the line that the hall's answer writes, and tells what follows it.
fn follow<'a>(
    alloc: Global,
    hall: &mut Hall,
    view: &mut View,
    line: &mut Replies<Global>,
    lines: &'a [u8],
) -> Result<&'a [u8], OpenFault> {
    let number = (hall.len() as u64).saturating_add(2);
    let kind = hall.config().world;
    let Some(event) = next_event(alloc, kind, lines)? else {
        return Err(OpenFault::OtherLine(number));
    };
    let reply = applied(hall, event, view);
    if let Reply::Refused(why) = reply {
        return Err(match why {
            Refusal::NoMemory => OpenFault::NoMemory,
            _ => OpenFault::OtherLine(number),
        });
    }
    line.clear();
    AsRecord::put_answered(event, reply, view, line);
    match after_front(lines, line.as_slice()) {
        Some(rest) => Ok(rest),
        None => Err(OpenFault::OtherLine(number)),
    }
}

/// Applies the events of these lines, each of which has to be the line that the hall's answer writes.
fn replay(alloc: Global, hall: &mut Hall, lines: &[u8]) -> Result<(), OpenFault> {
    let mut view = View::new();
    let mut line = Replies::new(alloc)?;
    let mut left = lines;
    while !left.is_empty() {
        left = follow(alloc, hall, &mut view, &mut line, left)?;
    }
    Ok(())
}

/// The hall with no event.
fn fresh(alloc: Global, config: Config) -> Result<Hall, OpenFault> {
    match Hall::new(alloc, config) {
        Ok(hall) => Ok(hall),
        Err(Refusal::NoMemory) => Err(OpenFault::NoMemory),
        Err(_) => Err(OpenFault::NoNames),
    }
}

/// The hall whose record stands in these whole lines, with this header.
fn replayed(alloc: Global, config: Config, header: &[u8], whole: &[u8]) -> Result<Hall, OpenFault> {
    match check(alloc, whole) {
        Verdict::Yes => {}
        Verdict::NoMemory => return Err(OpenFault::NoMemory),
        verdict => return Err(OpenFault::Judged(verdict)),
    }
    let Some(lines) = after_front(whole, header) else {
        return Err(OpenFault::OtherConfig);
    };
    let mut hall = fresh(alloc, config)?;
    replay(alloc, &mut hall, lines)?;
    Ok(hall)
}

/// Returns the hall whose record these bytes are without their torn last line, and how many bytes are left without it.
///
/// If they are a part of the header, the hall has no event and no byte is left.
///
/// # Errors
///
/// As of `Journal::open`, but for `Disk`.
pub fn recovered(
    alloc: Global,
    config: Config,
    header: &[u8],
    bytes: &[u8],
) -> Result<(Hall, usize), OpenFault> {
    let end = whole_length(bytes);
    if end == 0 && after_front(header, bytes).is_some() {
        return Ok((fresh(alloc, config)?, 0));
    }
    let hall = replayed(alloc, config, header, &bytes[..end])?;
    if bytes[end..].contains(&0) {
        return Err(OpenFault::OtherLine((hall.len() as u64).saturating_add(2)));
    }
    Ok((hall, end))
}
