//! `slotctl play`, over a grid of doors and over both worlds of names, with one pool and its slots: the same lines in, the same lines out,
//! or the same record with `--record`. `plain play [--world grid|rename|tree] [--m M] [--k K] [--limit L] [--record]`.

use crate::commands::{parse, quick, Command, LINE_MAX};
use crate::digits::line_end;
use crate::grid::Grid;
use crate::places::Places;
use crate::replies::put_line;
use crate::tree::Tree;
use crate::worlds::{Desk, Doors, World};
use std::fs::File;
use std::io::{Read, Write};
use std::mem::ManuallyDrop;
use std::os::fd::FromRawFd;

pub const ROOM: usize = 65_536;

/// The standard streams.
pub fn streams() -> [ManuallyDrop<File>; 2] {
    // SAFETY: both are open as long as the process runs, and neither is closed here.
    unsafe { [ManuallyDrop::new(File::from_raw_fd(0)), ManuallyDrop::new(File::from_raw_fd(1))] }
}

/// Answers a command that these bytes ask for, or records it.
#[inline(always)]
fn put_answer<W: World, const RECORDED: bool>(text: &[u8], command: Command, world: &mut W, out: &mut Vec<u8>) {
    if RECORDED {
        out.extend_from_slice(b"{\"command\":\"");
        out.extend_from_slice(text);
        out.extend_from_slice(b"\",\"reply\":\"");
    }
    world.answer::<RECORDED>(command, out);
    if RECORDED {
        out.truncate(out.len() - 1);
        out.extend_from_slice(b"\"}\n");
    }
}

/// Answers a line by any way; whether it was `quit`. A record has neither `quit` nor who has a name, and no line that is bad.
#[inline(never)]
fn answer_slowly<W: World, const RECORDED: bool>(line: &[u8], world: &mut W, out: &mut Vec<u8>) -> bool {
    match parse(line, W::HAS_POOL) {
        Ok(command) => {
            if command.is_event() || !RECORDED {
                put_answer::<W, RECORDED>(line, command, world, out);
            }
            matches!(command, Command::Quit)
        }
        Err(why) => {
            if !RECORDED {
                put_line(b"bad ", why, out);
            }
            false
        }
    }
}

/// Answers the lines that end in these bytes: how many bytes they are; none once the run has ended.
#[inline(never)]
fn feed<W: World, const RECORDED: bool>(text: &[u8], world: &mut W, out: &mut Vec<u8>) -> Option<usize> {
    let mut at = 0;
    while at < text.len() {
        let rest = &text[at..];
        if let Some((command, end)) = quick::<b'\n'>(rest, W::HAS_POOL) {
            put_answer::<W, RECORDED>(&rest[..end], command, world, out);
            at += end + 1;
            continue;
        }
        let Some(end) = line_end(rest) else {
            break;
        };
        if answer_slowly::<W, RECORDED>(&rest[..end], world, out) {
            return None;
        }
        at += end + 1;
    }
    Some(at)
}

/// Plays standard input to its end, with the replies to each read, or their lines of the record, written before the next.
fn play_in<W: World, const RECORDED: bool>(mut world: W, header: &[u8]) {
    let files = streams();
    let (mut input, mut output) = (&*files[0], &*files[1]);
    output.write_all(header).unwrap();
    let mut text = vec![0; ROOM + LINE_MAX + 1];
    let mut out = Vec::with_capacity(if RECORDED { 4 * ROOM } else { ROOM });
    let mut kept = 0;
    loop {
        let more = input.read(&mut text[kept..kept + ROOM]).unwrap();
        if more == 0 {
            break;
        }
        let whole = kept + more;
        out.clear();
        let taken = feed::<W, RECORDED>(&text[..whole], &mut world, &mut out);
        output.write_all(&out).unwrap();
        let Some(taken) = taken else {
            return;
        };
        // Of a line that goes on, no more is kept than tells that it is too long.
        kept = (whole - taken).min(LINE_MAX + 1);
        text.copy_within(taken..taken + kept, 0);
    }
    if kept != 0 {
        out.clear();
        answer_slowly::<W, RECORDED>(&text[..kept], &mut world, &mut out);
        output.write_all(&out).unwrap();
    }
}

/// Plays a world of names, or records it.
fn play_names<P: Places>(m: usize, k: usize, limit: u64, recorded: Option<&str>) {
    let desk = Desk::<P>::new(m, k, limit);
    match recorded {
        Some(world) => {
            let header = format!("{{\"format\":\"slot-record\",\"k\":{k},\"limit\":{limit},\"m\":{m},\"version\":2,\"world\":\"{world}\"}}\n");
            play_in::<_, true>(desk, header.as_bytes());
        }
        None => play_in::<_, false>(desk, b""),
    }
}

/// Plays the world of these words.
pub fn play(words: &[String]) {
    let told = |name: &str| words.windows(2).find(|pair| pair[0] == name).map(|pair| pair[1].as_str());
    let size = |name: &str, usual: usize| told(name).map_or(usual, |word| word.parse().unwrap());
    let (m, k, limit) = (size("--m", 4), size("--k", 4), size("--limit", 1000) as u64);
    let world = told("--world").unwrap_or("rename");
    let recorded = words.iter().any(|word| word == "--record").then_some(world);
    match world {
        "grid" => play_in::<_, false>(Doors::new(m), b""),
        "rename" => play_names::<Grid>(m, k, limit, recorded),
        "tree" => play_names::<Tree>(m, k, limit, recorded),
        other => panic!("no world {other}"),
    }
}
