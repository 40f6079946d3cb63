//! `plain check` reads a record as it is written here, replays it and compares each reply: it answers `yes`, or `no` with the first line
//! that another run would have. `plain migrate` writes the record again, as it is written here.

use crate::commands::{parse, quick, LINE_MAX};
use crate::digits::line_end;
use crate::grid::Grid;
use crate::play::{streams, ROOM};
use crate::tree::Tree;
use crate::worlds::{Desk, World};
use std::io::{Read, Write};

pub const BEFORE: &[u8] = b"{\"command\":\"";
pub const BETWEEN: &[u8] = b"\",\"reply\":\"";

/// The longest line of a record, with room to spare.
const RECORD_LINE: usize = 8_192;

/// Replays a line of a record: whether its reply is the one that is told, and how many bytes it has. `None` where it does not end here.
/// Where lines are kept, this one is appended as it is written in a record.
#[inline(always)]
fn replay<W: World, const KEPT: bool>(text: &[u8], world: &mut W, out: &mut Vec<u8>) -> Option<(bool, usize)> {
    let end = |text: &[u8]| line_end(text).map(|at| at + 1);
    if !text.starts_with(BEFORE) {
        return end(text).map(|at| (false, at));
    }
    let asked = &text[BEFORE.len()..];
    let (command, length) = match quick::<b'"'>(asked, W::HAS_POOL) {
        Some(found) => found,
        None => {
            let whole = end(text)?;
            let length = asked.iter().position(|byte| *byte == b'"').unwrap_or(0);
            match parse(&asked[..length], W::HAS_POOL) {
                Ok(command) => (command, length),
                Err(_) => return Some((false, whole)),
            }
        }
    };
    let told = &asked[length..];
    if told.len() < RECORD_LINE {
        end(told)?;
    }
    if !told.starts_with(BETWEEN) {
        return end(text).map(|at| (false, at));
    }
    if KEPT {
        out.extend_from_slice(BEFORE);
        out.extend_from_slice(&asked[..length]);
        out.extend_from_slice(BETWEEN);
    } else {
        out.clear();
    }
    let from = out.len();
    world.answer::<true>(command, out);
    out.truncate(out.len() - 1);
    out.extend_from_slice(b"\"}\n");
    let reply = &out[from..];
    let right = told[BETWEEN.len()..].starts_with(reply);
    Some((right, BEFORE.len() + length + BETWEEN.len() + reply.len()))
}

/// Replays the lines that end in these bytes: how many bytes they are, or which line is told otherwise.
#[inline(never)]
fn replay_all<W: World, const KEPT: bool>(text: &[u8], line: &mut u64, world: &mut W, out: &mut Vec<u8>) -> Result<usize, u64> {
    let mut at = 0;
    while let Some((right, length)) = replay::<W, KEPT>(&text[at..], world, out) {
        *line += 1;
        if !right {
            return Err(*line);
        }
        at += length;
    }
    Ok(at)
}

/// Checks the lines behind the header, of which so many bytes were read, and keeps them behind `out` where they are to be kept.
fn check_in<W: World, const KEPT: bool>(mut world: W, text: &mut [u8], read: usize, out: &mut Vec<u8>) -> Result<(), u64> {
    let files = streams();
    let mut input = &*files[0];
    let (mut line, mut kept) = (1, read);
    loop {
        let taken = replay_all::<W, KEPT>(&text[..kept], &mut line, &mut world, out)?;
        text.copy_within(taken..kept, 0);
        kept -= taken;
        let more = input.read(&mut text[kept..kept + ROOM]).unwrap();
        if more == 0 {
            return if kept == 0 { Ok(()) } else { Err(line + 1) };
        }
        kept += more;
    }
}

/// Checks the record on standard input. Where it is to be kept, `out` has it at the end.
fn check_all<const KEPT: bool>(out: &mut Vec<u8>) -> Result<(), u64> {
    let mut text = vec![0; ROOM + RECORD_LINE + LINE_MAX];
    let files = streams();
    let read = (&*files[0]).read(&mut text[..ROOM]).unwrap();
    let end = text[..read].iter().position(|byte| *byte == b'\n').unwrap();
    let header = String::from_utf8(text[..end].to_vec()).unwrap();
    let size = |key: &str| -> usize {
        let (_, value) = header.split_once(key).unwrap();
        value[..value.find([',', '}']).unwrap()].parse().unwrap()
    };
    let (m, k, limit) = (size("\"m\":"), size("\"k\":"), size("\"limit\":") as u64);
    if KEPT {
        out.extend_from_slice(&text[..=end]);
    }
    text.copy_within(end + 1..read, 0);
    let left = read - end - 1;
    match header.ends_with("\"tree\"}") {
        true => check_in::<_, KEPT>(Desk::<Tree>::new(m, k, limit), &mut text, left, out),
        false => check_in::<_, KEPT>(Desk::<Grid>::new(m, k, limit), &mut text, left, out),
    }
}

/// Tells whether the record on standard input is that of a run.
pub fn check() {
    match check_all::<false>(&mut Vec::with_capacity(RECORD_LINE)) {
        Ok(()) => println!("yes"),
        Err(line) => println!("no {line}"),
    }
}

/// Writes the record on standard input again, where it is that of a run.
pub fn migrate() {
    let mut out = Vec::new();
    match check_all::<true>(&mut out) {
        Ok(()) => (&*streams()[1]).write_all(&out).unwrap(),
        Err(line) => println!("no {line}"),
    }
}
