// Erased by bindings/rust/erase from crates/service_loop/src/watch_line.rt, sha256 e0be1ea28f4197a0b585d14387584ee6d8f5fb900d8b83b4e0be033775fb0c7e.
//! Lines that ask what changes of who holds numbers, and the answers to them.

use crate::kit::alloc::Allocator;
use crate::proved::service_loop::change::Change;
use crate::proved::service_loop::feed::Feed;
use crate::proved::service_loop::first_point::FirstPoint;
use crate::proved::text_lines::held::telling::PAGE;
use crate::proved::text_lines::print::{put_number, put_word};
use crate::proved::text_lines::replies::Replies;
use crate::proved::text_lines::words::{is_word, number};

/// What a line asks for that asks what changes of who holds numbers.
#[derive(Clone, Copy, Debug, PartialEq, Eq)]
pub enum WatchQuery {
    /// `watch`: the point at which the changes end.
    End,
    /// `watch P`: the changes from this point on.
    From(u64),
}

/// Returns what a line, without its LF, asks for, or `None` if it does not ask for changes.
pub fn watch_query(line: &[u8]) -> Option<WatchQuery> {
    if is_word(line, b"watch") {
        return Some(WatchQuery::End);
    }
    let front = line.len().min(6);
    if !is_word(&line[..front], b"watch ") {
        return None;
    }
    from_if(number(&line[front..]))
}

// Asks for the changes from a point on, where there is one.
fn from_if(point: Option<u64>) -> Option<WatchQuery> {
    match point {
        Some(point) => Some(WatchQuery::From(point)),
        None => None,
    }
}

// Appends the line of a change.
fn put_change<B: Allocator>(change: Change, out: &mut Replies<B>) {
    let (number, id) = match change {
        Change::Got(number, id) => {
            out.put(b"got ");
            (number, id)
        }
        Change::Left(number, id) => {
            out.put(b"left ");
            (number, id)
        }
    };
    put_number(u64::from(number), out);
    out.put(b" ");
    put_number(id, out);
    out.put(b"\n");
}

// Appends the lines of changes.
fn put_lines<B: Allocator>(changes: &[Change], out: &mut Replies<B>) {
    for change in changes {
        put_change(*change, out);
    }
}

// Appends the point from which on others are to be asked for.
fn put_point<B: Allocator>(point: u64, out: &mut Replies<B>) {
    put_word(b"point ", point, out);
    out.put(b"\n");
}

// Appends the same, where some changes before it cannot be told.
fn put_lost<B: Allocator>(point: u64, out: &mut Replies<B>) {
    put_word(b"lost ", point, out);
    out.put(b"\n");
}

// Appends a page of the changes from a point of the feed on.
fn put_page<B: Allocator>(feed: &Feed, first: &FirstPoint, point: u64, out: &mut Replies<B>) {
    let Some(changes) = feed.from(point) else {
        put_lost(end_told(feed, first), out);
        return;
    };
    let count = changes.len().min(PAGE as usize);
    put_lines(&changes[..count], out);
    put_point(first.get() + (point + count as u64), out);
}

/// Returns the point at which the changes end, as those are told who watch.
pub(crate) fn end_told(feed: &Feed, first: &FirstPoint) -> u64 {
    first.get() + feed.end()
}

/// Appends the answer to a query: the point at which the changes end, or a page of those from a point on, or that some of them are lost.
pub(crate) fn put_changes<B: Allocator>(
    feed: &Feed,
    first: &FirstPoint,
    query: WatchQuery,
    out: &mut Replies<B>,
) {
    match query {
        WatchQuery::End => put_point(end_told(feed, first), out),
        WatchQuery::From(point) if point < first.get() => put_lost(end_told(feed, first), out),
        WatchQuery::From(point) => put_page(feed, first, point - first.get(), out),
    }
}
