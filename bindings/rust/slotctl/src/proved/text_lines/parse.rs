// Erased by bindings/rust/erase from crates/text_lines/src/parse.rt, sha256 5458023f954659659c8c309075280518e0cd5d4bb8e9b8dcda1e7f3fb80330c5.
//! From the bytes of a line to the command that they mean.

use crate::proved::model_asked::bad::Bad;
use crate::proved::model_asked::command::Command;
use crate::proved::model_asked::event::Event;
use crate::proved::model_asked::kind::WorldKind;
use crate::proved::text_lines::words::{cut, is_word, number};

/// The most bytes of a line, without its LF.
pub(crate) const LINE_MAX: usize = 100;

/// Returns the command that a line, without its LF, means in this world.
///
/// A single space ends a word, so two spaces side by side have an empty word between them.
///
/// # Errors
///
/// The first that applies is returned:
///
/// - `TooLong`: the line has more than 100 bytes.
/// - `NotPrintable`: a byte is outside 0x20..=0x7E.
/// - `UnknownWord`: the first word is no command of this world.
/// - `WrongCount`: the command takes another count of words.
/// - `BadNumber`: one of the other words is not `0` or digits without a leading zero, or is not below 2^64.
pub fn parse_line(line: &[u8], world: WorldKind) -> Result<Command, Bad> {
    if LINE_MAX < line.len() {
        return Err(Bad::TooLong);
    }
    if !is_all_printable(line) {
        return Err(Bad::NotPrintable);
    }
    let (word, others) = cut_word(line);
    command_of(word, others, world)
}

// The meaning of a line, by its first word and the others.
fn command_of(word: &[u8], others: Option<&[u8]>, world: WorldKind) -> Result<Command, Bad> {
    if is_word(word, b"begin") {
        return Ok(Command::Event(Event::Begin(only_number(others)?)));
    }
    if is_word(word, b"step") {
        return Ok(Command::Event(Event::Step(only_number(others)?)));
    }
    if is_word(word, b"quit") {
        no_more(others)?;
        return Ok(Command::Quit);
    }
    if world.gives_names() {
        return desk_command_of(word, others, world);
    }
    Err(Bad::UnknownWord)
}

// The same for a first word that only a desk knows.
fn desk_command_of(word: &[u8], others: Option<&[u8]>, world: WorldKind) -> Result<Command, Bad> {
    if is_word(word, b"enter") {
        return Ok(Command::Event(Event::Enter(only_number(others)?)));
    }
    if is_word(word, b"probe") {
        return Ok(Command::Event(Event::Probe(only_number(others)?)));
    }
    if is_word(word, b"leave") {
        return Ok(Command::Event(Event::Leave(only_number(others)?)));
    }
    slot_command_of(word, others, world)
}

// The same for the words of slots, and for those that ask for more numbers or for an owner; and for `seek`.
fn slot_command_of(word: &[u8], others: Option<&[u8]>, world: WorldKind) -> Result<Command, Bad> {
    if is_word(word, b"put") {
        let (id, value) = two_numbers(others)?;
        return Ok(Command::Event(Event::Put(id, value)));
    }
    if is_word(word, b"get") {
        return Ok(Command::Event(Event::Get(only_number(others)?)));
    }
    if is_word(word, b"widen") {
        return Ok(Command::Event(Event::Widen(only_number(others)?)));
    }
    if is_word(word, b"owner") {
        return Ok(Command::Owner(only_number(others)?));
    }
    if is_word(word, b"seek") && world.is_wide() {
        return Ok(Command::Event(Event::Seek(only_number(others)?)));
    }
    Err(Bad::UnknownWord)
}

// Whether each byte is in 0x20..=0x7E.
fn is_all_printable(line: &[u8]) -> bool {
    line.iter().all(|byte| 0x20 <= *byte && *byte <= 0x7E)
}

// The first word of these bytes, and the bytes after its space, if a space ends it.
fn cut_word(bytes: &[u8]) -> (&[u8], Option<&[u8]>) {
    cut(bytes, b' ')
}

// The number that the other words write, if they are one word.
fn only_number(words: Option<&[u8]>) -> Result<u64, Bad> {
    let Some(words) = words else {
        return Err(Bad::WrongCount);
    };
    let (word, others) = cut_word(words);
    no_more(others)?;
    number(word).ok_or(Bad::BadNumber)
}

// The numbers that the other words write, if they are two words.
fn two_numbers(words: Option<&[u8]>) -> Result<(u64, u64), Bad> {
    let Some(words) = words else {
        return Err(Bad::WrongCount);
    };
    let (first, rest) = cut_word(words);
    let Some(rest) = rest else {
        return Err(Bad::WrongCount);
    };
    let (second, others) = cut_word(rest);
    no_more(others)?;
    both_numbers(first, second)
}

// The numbers that both words write.
fn both_numbers(first: &[u8], second: &[u8]) -> Result<(u64, u64), Bad> {
    match (number(first), number(second)) {
        (Some(one), Some(other)) => Ok((one, other)),
        _ => Err(Bad::BadNumber),
    }
}

// `WrongCount` if a word is left.
fn no_more(words: Option<&[u8]>) -> Result<(), Bad> {
    match words {
        None => Ok(()),
        Some(_) => Err(Bad::WrongCount),
    }
}
