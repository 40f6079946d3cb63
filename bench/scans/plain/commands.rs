//! Commands, and how they are read.

use crate::digits::number;

pub const LINE_MAX: usize = 100;

#[derive(Clone, Copy)]
pub enum Command {
    Begin(u64),
    Step(u64),
    Enter(u64),
    Probe(u64),
    Leave(u64),
    Put(u64, u64),
    Get(u64),
    Widen(u64),
    Owner(u64),
    Quit,
}

impl Command {
    /// Whether a record has it.
    pub fn is_event(self) -> bool {
        !matches!(self, Command::Quit | Command::Owner(_))
    }
}

/// A command of one number, behind its word and before this byte, and how long it is.
#[inline(always)]
fn one<const END: u8>(text: &[u8], word: usize, make: impl Fn(u64) -> Command) -> Option<(Command, usize)> {
    let (value, count) = number(&text[word..])?;
    (text.get(word + count) == Some(&END)).then(|| (make(value), word + count))
}

/// The commonest commands, read where they stand up to this byte. Those of the pool are read if there is one.
#[inline(always)]
pub fn quick<const END: u8>(text: &[u8], has_pool: bool) -> Option<(Command, usize)> {
    if text.starts_with(b"step ") {
        return one::<END>(text, 5, Command::Step);
    }
    if text.starts_with(b"begin ") {
        return one::<END>(text, 6, Command::Begin);
    }
    if has_pool {
        return quick_of_pool::<END>(text);
    }
    None
}

#[inline(always)]
fn quick_of_pool<const END: u8>(text: &[u8]) -> Option<(Command, usize)> {
    if text.starts_with(b"probe ") {
        return one::<END>(text, 6, Command::Probe);
    }
    if text.starts_with(b"enter ") {
        return one::<END>(text, 6, Command::Enter);
    }
    if text.starts_with(b"leave ") {
        return one::<END>(text, 6, Command::Leave);
    }
    if text.starts_with(b"get ") {
        return one::<END>(text, 4, Command::Get);
    }
    let (identity, count) = number(text.strip_prefix(b"put ")?)?;
    match text.get(4 + count) {
        Some(b' ') => one::<END>(text, 5 + count, |value| Command::Put(identity, value)),
        _ => None,
    }
}

/// Any line, without its LF: its command, or why it is none.
pub fn parse(line: &[u8], has_pool: bool) -> Result<Command, u64> {
    if LINE_MAX < line.len() {
        return Err(1);
    }
    if line.iter().any(|byte| !(0x20..=0x7E).contains(byte)) {
        return Err(2);
    }
    let mut words = line.split(|byte| *byte == b' ');
    let word = words.next().unwrap_or(b"");
    let make: fn(u64) -> Command = match word {
        b"begin" => Command::Begin,
        b"step" => Command::Step,
        b"quit" => return if words.next().is_some() { Err(4) } else { Ok(Command::Quit) },
        _ if !has_pool => return Err(3),
        b"enter" => Command::Enter,
        b"probe" => Command::Probe,
        b"leave" => Command::Leave,
        b"get" => Command::Get,
        b"widen" => Command::Widen,
        b"owner" => Command::Owner,
        b"put" => return parse_put(words),
        _ => return Err(3),
    };
    match (words.next(), words.next()) {
        (Some(word), None) => Ok(make(whole(word)?)),
        _ => Err(4),
    }
}

fn parse_put<'a>(mut words: impl Iterator<Item = &'a [u8]>) -> Result<Command, u64> {
    match (words.next(), words.next(), words.next()) {
        (Some(identity), Some(value), None) => Ok(Command::Put(whole(identity)?, whole(value)?)),
        _ => Err(4),
    }
}

/// The number that a word is.
fn whole(word: &[u8]) -> Result<u64, u64> {
    match number(word) {
        Some((value, count)) if count == word.len() => Ok(value),
        _ => Err(5),
    }
}
