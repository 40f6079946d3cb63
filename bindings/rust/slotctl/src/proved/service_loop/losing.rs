// Erased by bindings/rust/erase from crates/service_loop/src/losing.rt, sha256 15c5b246ad5644cd21431d14008870b6d62bfb085e37dd78fe55d32fc3fd5eb5.
//! Stays that may have begun by lines whose answers were lost.

use crate::kit::memchr::memchr;
use crate::proved::model_asked::command::Command;
use crate::proved::model_asked::event::Event;
use crate::proved::model_asked::kind::WorldKind;
use crate::proved::service_loop::attended::Attended;
use crate::proved::text_lines::parse::parse_line;

/// What ends a line.
const LF: u8 = 10;

// Whose `enter` an event is.
fn enters(event: Event) -> Option<u64> {
    match event {
        Event::Enter(identity) => Some(identity),
        _ => None,
    }
}

// Whose `enter` a line is.
fn entered_by(line: &[u8], kind: WorldKind) -> Option<u64> {
    match parse_line(line, kind) {
        Ok(Command::Event(event)) => enters(event),
        Ok(Command::Owner(_) | Command::Quit) | Err(_) => None,
    }
}

// Notes what a line whose answer was lost says of stays.
fn note_line<D>(service: &mut Attended<D>, line: &[u8], kind: WorldKind) {
    if let Some(identity) = entered_by(line, kind) {
        service.note_lost(identity);
    }
}

/// Notes what these lines say of stays, whose answers were lost: each `enter` among them may have been applied. So nobody keeps the stay from
/// now on, unless a connection keeps it.
pub(crate) fn note_lost<D>(service: &mut Attended<D>, lines: &[u8], kind: WorldKind) {
    let mut from = 0;
    while from < lines.len() {
        let rest = &lines[from..];
        let Some(end) = memchr(LF, rest) else {
            return;
        };
        note_line(service, &rest[..end], kind);
        from += end + 1;
    }
}
