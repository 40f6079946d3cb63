//! `slotctl show` by plain code, of records of the pool: the same record in, the same page out. `plain show FRAME`, where FRAME is the page
//! of a record of the same header and no events, which has the fixed texts.

use crate::commands::{parse, quick, Command};
use crate::digits::{number, put_number};
use crate::grid::Grid;
use crate::play::streams;
use crate::pool::Stay;
use crate::records::{BEFORE, BETWEEN};
use crate::worlds::{Desk, World};
use std::fs;
use std::io::{Read, Write};

/// Where the text that follows these bytes begins.
fn behind(text: &str, bytes: &str) -> usize {
    text.find(bytes).unwrap() + bytes.len()
}

/// Whose command it is, where it is one of the pool's competitors.
fn competitor(command: Command) -> Option<u64> {
    match command {
        Command::Enter(identity) | Command::Probe(identity) | Command::Leave(identity) | Command::Put(identity, _) | Command::Get(identity) => {
            Some(identity)
        }
        _ => None,
    }
}

/// What a competitor probes, or holds with what is in its slot.
fn put_stay(desk: &Desk<Grid>, stay: Stay, page: &mut Vec<u8>) {
    match stay {
        Stay::Seeking(bit) => {
            page.extend_from_slice(b"probes ");
            put_number(bit as u64, page);
        }
        Stay::Settled(held) => {
            page.extend_from_slice(b"holds ");
            put_number(held as u64, page);
            page.push(b' ');
            put_number(desk.pool.values[held], page);
        }
    }
}

/// The row of an event that asked for this command by these bytes, where the desk answered so.
fn put_row(desk: &Desk<Grid>, text: &[u8], command: Command, reply: &[u8], page: &mut Vec<u8>) {
    page.extend_from_slice(b"[\"");
    page.extend_from_slice(text);
    page.extend_from_slice(b"\",\"");
    page.extend_from_slice(reply);
    if reply.starts_with(b"refused ") {
        return page.extend_from_slice(b"\",\"\",\"\",\"\",\"\",\"\",\"\",\"\"],\n");
    }
    page.extend_from_slice(b"\",\"");
    page.extend_from_slice(reply);
    page.extend_from_slice(b"\",\"\",\"\",\"\",\"\",\"\",\"");
    if let Some(at) = competitor(command).and_then(|identity| desk.pool.roster.find(identity)) {
        put_stay(desk, desk.pool.stays[at], page);
    }
    page.extend_from_slice(b"\",\"");
    put_number(desk.pool.size as u64, page);
    page.extend_from_slice(b"\"],\n");
}

/// The item of an event, for readers without a script.
fn put_item(event: u64, text: &[u8], reply: &[u8], items: &mut Vec<u8>) {
    items.extend_from_slice(b"<li value=\"");
    put_number(event, items);
    items.extend_from_slice(b"\">");
    items.extend_from_slice(text);
    items.extend_from_slice(b" <b></b> ");
    items.extend_from_slice(reply);
    items.extend_from_slice(b"</li>\n");
}

/// What the desk holds at the end.
fn put_state(desk: &Desk<Grid>, page: &mut Vec<u8>) {
    for (identity, stay) in desk.pool.roster.identities.iter().zip(&desk.pool.stays) {
        page.extend_from_slice(b"<li>");
        put_number(*identity, page);
        page.extend_from_slice(b":    ");
        put_stay(desk, *stay, page);
        page.extend_from_slice(b"</li>\n");
    }
    for slot in 1..=desk.pool.size {
        page.extend_from_slice(b"<li>slot ");
        put_number(slot as u64, page);
        page.extend_from_slice(b": ");
        put_number(desk.pool.values[slot], page);
        page.extend_from_slice(b"</li>\n");
    }
    page.extend_from_slice(b"<li>size: ");
    put_number(desk.pool.size as u64, page);
    page.extend_from_slice(b"</li>\n");
}

/// A line of a record: its command's bytes, the command, and the reply that is told.
fn read_line(line: &[u8]) -> (&[u8], Command, &[u8]) {
    let asked = line.strip_prefix(BEFORE).unwrap();
    let (command, length) = match quick::<b'"'>(asked, true) {
        Some(found) => found,
        None => {
            let length = asked.iter().position(|byte| *byte == b'"').unwrap();
            (parse(&asked[..length], true).unwrap_or(Command::Quit), length)
        }
    };
    let told = asked[length..].strip_prefix(BETWEEN).unwrap();
    (&asked[..length], command, told.strip_suffix(b"\"}").unwrap())
}

/// Writes the rows of these lines, and returns the items and how many events there are; or tells which line has another reply.
fn put_events(lines: &[u8], desk: &mut Desk<Grid>, page: &mut Vec<u8>) -> Result<(Vec<u8>, u64), u64> {
    let (mut items, mut reply, mut events) = (Vec::new(), Vec::new(), 0);
    for line in lines.split(|byte| *byte == b'\n').filter(|line| !line.is_empty()) {
        let (text, command, told) = read_line(line);
        reply.clear();
        desk.answer::<true>(command, &mut reply);
        if told != &reply[..reply.len() - 1] {
            return Err(events + 2);
        }
        events += 1;
        put_row(desk, text, command, told, page);
        put_item(events, text, told, &mut items);
    }
    Ok((items, events))
}

/// Writes the page of the record on standard input, with the fixed texts of this page.
pub fn show(frame: &str) {
    let frame = fs::read_to_string(frame).unwrap();
    let mut record = Vec::new();
    let files = streams();
    (&*files[0]).read_to_end(&mut record).unwrap();
    let end = record.iter().position(|byte| *byte == b'\n').unwrap();
    let header = &record[..end];
    let size = header.windows(4).position(|it| it == b"\"k\":").and_then(|at| number(&header[at + 4..])).unwrap().0;
    let mut desk = Desk::<Grid>::new(4, size as usize, 1000);
    let rows = behind(&frame, "\"rows\":[\n");
    let mut page = frame.as_bytes()[..rows].to_vec();
    let (items, events) = match put_events(&record[end + 1..], &mut desk, &mut page) {
        Ok(put) => put,
        Err(line) => return println!("no {line}"),
    };
    let count = behind(&frame, "\"events\":");
    page.extend_from_slice(frame[rows..count].as_bytes());
    put_number(events, &mut page);
    let rest = &frame[count + 1..];
    let state = behind(rest, "<ul>\n");
    page.extend_from_slice(rest[..state].as_bytes());
    put_state(&desk, &mut page);
    let between = rest.find("</ul>").unwrap();
    let list = behind(rest, "<ol>\n");
    page.extend_from_slice(rest[between..list].as_bytes());
    page.extend_from_slice(&items);
    page.extend_from_slice(rest[list..].as_bytes());
    (&*files[1]).write_all(&page).unwrap();
}
