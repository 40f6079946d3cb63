// Erased by bindings/rust/erase from crates/service_loop/src/terms.rt, sha256 ff1e3d2785326e5cfbe867e0008aaaaa56e731d434748b7193d815f36430642a.
//! What a server says of the ends of stays, and the lines that it answers by itself without a command.

use crate::kit::alloc::Allocator;
use crate::proved::service_loop::feed::Feed;
use crate::proved::service_loop::first_point::FirstPoint;
use crate::proved::service_loop::persist::Persist;
use crate::proved::service_loop::watch_line::{put_changes, watch_query, WatchQuery};
use crate::proved::text_lines::held::query::{held_query, HeldQuery};
use crate::proved::text_lines::print::put_number;
use crate::proved::text_lines::replies::Replies;
use crate::proved::text_lines::words::is_word;

/// When a server closes a silent connection, and when it ends the stays of one that is gone.
#[derive(Clone, Copy, Debug, PartialEq, Eq)]
pub struct Terms {
    /// How many seconds after its connection has ended a stay ends; never, where it is not given.
    pub grace: Option<u64>,
    /// After how many seconds a client that says nothing is closed; never, where it is not given.
    pub idle: Option<u64>,
}

/// What a line asks that a server answers by itself, and that changes nothing.
#[derive(Clone, Copy, Debug, PartialEq, Eq)]
pub enum Query {
    /// Who holds numbers: `held`, and `held ID`.
    Holders(HeldQuery),
    /// What changes of that: `watch`, and `watch P`.
    Changes(WatchQuery),
    /// The terms of the server: `terms`.
    Terms,
}

/// What a line, without its LF, asks; `None` where the server does not answer it by itself, or where it takes a number.
pub fn query_of(line: &[u8]) -> Option<Query> {
    if is_word(line, b"terms") {
        return Some(Query::Terms);
    }
    match held_query(line) {
        Some(query) => Some(Query::Holders(query)),
        None => changes_if(watch_query(line)),
    }
}

// Asks for changes, where a line does.
fn changes_if(query: Option<WatchQuery>) -> Option<Query> {
    match query {
        Some(query) => Some(Query::Changes(query)),
        None => None,
    }
}

// So many seconds, or 0 for never.
fn seconds(span: Option<u64>) -> u64 {
    match span {
        Some(seconds) => seconds,
        None => 0,
    }
}

// Appends how stays are held, by their grace time.
fn put_hold<B: Allocator>(grace: Option<u64>, out: &mut Replies<B>) {
    match grace {
        Some(_) => out.put(b"terms connection "),
        None => out.put(b"terms forever "),
    }
}

/// Appends the line of terms: `terms HOLD GRACE IDLE`, where HOLD is `forever` or `connection`. GRACE is 0 with `forever`, and IDLE is 0 where no
/// silent client is closed.
pub fn put_terms<B: Allocator>(terms: Terms, out: &mut Replies<B>) {
    put_hold(terms.grace, out);
    put_number(seconds(terms.grace), out);
    out.put(b" ");
    put_number(seconds(terms.idle), out);
    out.put(b"\n");
}

/// Appends the answer to a query: the terms, or who holds numbers, as the persister tells, or what changed of that.
pub fn put_answer<D, K: Persist<D>, B: Allocator>(
    service: &D,
    persister: &K,
    terms: Terms,
    feed: &Feed,
    first: &FirstPoint,
    query: Query,
    out: &mut Replies<B>,
) {
    match query {
        Query::Holders(query) => persister.put_held(service, query, out),
        Query::Changes(query) => put_changes(feed, first, query, out),
        Query::Terms => put_terms(terms, out),
    }
}
