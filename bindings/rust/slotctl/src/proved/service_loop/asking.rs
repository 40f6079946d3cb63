// Erased by bindings/rust/erase from crates/service_loop/src/asking.rt, sha256 a0c8a7e79ac8a92fe10a5c8a39432854872cc5b5bab467e49316f4bad9f9e94f.
//! Lines that the server answers by itself, among bytes: those that ask who holds numbers or the terms, and those that take a number.

use crate::kit::memchr::{memchr, memrchr};
use crate::proved::service_loop::take_line::take_line;
use crate::proved::service_loop::terms::{query_of, Query};
use crate::proved::text_lines::held::query::QUERY_MAX;

/// What ends a line.
const LF: u8 = 10;

/// What each line that asks who holds numbers begins with, and no command. No command has it at all.
const ASKS: u8 = b'h';

/// What each line that takes a number begins with, and the one that asks for the terms, and no command.
const TAKES: u8 = b't';

/// What each line that asks for changes begins with. It has the letter too that no command has.
const WATCHES: u8 = b'w';

/// A letter of each line that takes a number, and of no command.
const INSIDE: u8 = b'k';

/// A letter of the line that asks for the terms, and of no command.
const AMID: u8 = b'm';

/// What the first line of these bytes asks, where it asks who holds numbers or the terms, and how many bytes it has with its LF.
pub(crate) fn first_query(bytes: &[u8]) -> Option<(Query, usize)> {
    let end = memchr(LF, bytes)?;
    let query = query_of(&bytes[..end])?;
    Some((query, end + 1))
}

/// The identity for which a line, without its LF, takes a number; `None` where it takes none.
pub(crate) fn taking_of(line: &[u8]) -> Option<u64> {
    match take_line(line) {
        Some(said) => Some(said.identity),
        None => None,
    }
}

/// For which identity the first line of these bytes takes a number, where it takes one, and how many bytes it has with its LF.
pub(crate) fn first_taking(bytes: &[u8]) -> Option<(u64, usize)> {
    let end = memchr(LF, bytes)?;
    let identity = taking_of(&bytes[..end])?;
    Some((identity, end + 1))
}

/// For how many seconds the first line of these bytes waits for a number; 0 where it takes none, or waits for none.
pub(crate) fn first_wait(bytes: &[u8]) -> u64 {
    let Some(end) = memchr(LF, bytes) else {
        return 0;
    };
    match take_line(&bytes[..end]) {
        Some(said) => said.seconds,
        None => 0,
    }
}

/// Whether a line, without its LF, is one that the server answers by itself.
pub(crate) fn is_own(line: &[u8]) -> bool {
    query_of(line).is_some() || taking_of(line).is_some()
}

// Whether the first of these bytes is that of a line that the server answers by itself.
fn begins(bytes: &[u8]) -> bool {
    match bytes {
        [first, ..] => *first == ASKS || *first == TAKES || *first == WATCHES,
        [] => false,
    }
}

// Whether a byte is none of these.
fn lacks(byte: u8, bytes: &[u8]) -> bool {
    match memchr(byte, bytes) {
        Some(_) => false,
        None => true,
    }
}

// Whether no line ends in these bytes.
fn lacks_end(bytes: &[u8]) -> bool {
    lacks(LF, bytes)
}

/// Whether these bytes are the beginning of a line that may ask so, or take a number, with no LF.
pub(crate) fn is_prefix_of(bytes: &[u8]) -> bool {
    begins(bytes) && bytes.len() <= QUERY_MAX && lacks_end(bytes)
}

// Whether these bytes begin with a line that asks who holds numbers, or the terms.
fn asks_first(bytes: &[u8]) -> bool {
    match first_query(bytes) {
        Some(_) => true,
        None => false,
    }
}

// Whether these bytes begin with a line that takes a number.
fn takes_first(bytes: &[u8]) -> bool {
    match first_taking(bytes) {
        Some(_) => true,
        None => false,
    }
}

// Whether these bytes begin with a line that the server answers by itself, or that may come to be one.
fn may_ask(bytes: &[u8]) -> bool {
    if !begins(bytes) {
        return false;
    }
    asks_first(bytes) || takes_first(bytes) || is_prefix_of(bytes)
}

// Where the line behind the first of these bytes begins, or else their end.
fn next_line(bytes: &[u8], from: usize) -> usize {
    match memchr(LF, &bytes[from..]) {
        Some(end) => from + end + 1,
        None => bytes.len(),
    }
}

// Where the first line of these bytes begins, or else their end. The first of them begins a line, where it says so.
fn first_line(begins: bool, bytes: &[u8]) -> usize {
    if begins || bytes.is_empty() {
        return 0;
    }
    next_line(bytes, 0)
}

// Where the last line of these bytes begins, or else their end. The first of them begins a line, where it says so.
fn last_line(begins: bool, bytes: &[u8]) -> usize {
    match memrchr(LF, bytes) {
        Some(end) => end + 1,
        None => first_line(begins, bytes),
    }
}

// Whether none of these bytes is a letter that lines have which the server answers by itself, and no command has. Every byte of clients comes by
// here. Two looks for one letter each take less than half the time of one look for either (`memchr2`).
fn lacks_letters(bytes: &[u8]) -> bool {
    lacks(ASKS, bytes) && lacks(INSIDE, bytes) && lacks(AMID, bytes)
}

// Where a line begins before which the server answers none by itself, or else the end of these bytes. The first of them begins a line, where it
// says so.
fn first_look(begins: bool, bytes: &[u8]) -> usize {
    if lacks_letters(bytes) {
        return last_line(begins, bytes);
    }
    first_line(begins, bytes)
}

/// How many of these bytes stand before the first line that the server answers by itself, or that may come to be such a line. The first of them
/// begins a line, where it says so. No line of those that begin before it is one that the server answers by itself.
pub(crate) fn before_query(begins: bool, bytes: &[u8]) -> usize {
    let mut at = first_look(begins, bytes);
    while at < bytes.len() && !may_ask(&bytes[at..]) {
        at = next_line(bytes, at);
    }
    at
}
