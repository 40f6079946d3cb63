// Erased by bindings/rust/erase from crates/text_lines/src/print.rt, sha256 79cfd088376e041b392655c5cd1a0da8a921f53cd4927b2adcee11b4c04b8654.
//! From replies to the text that is written.

use crate::kit::alloc::Allocator;
use crate::kit::itoa::Buffer;
use crate::proved::model_asked::bad::Bad;
use crate::proved::model_asked::reply::Reply;
use crate::proved::model_steps::place::Place;
use crate::proved::model_steps::refusal::Refusal;
use crate::proved::model_steps::view::View;
use crate::proved::text_lines::replies::Replies;

/// The most bytes of a reply's text or of the answer to a bad line, its LF included: those of a view of 64 pairs.
pub const REPLY_ROOM: usize = 2_692;

/// Appends the text of a reply, one line with its LF. A reply that shows a view shows `view`.
#[inline(always)]
pub fn print_reply<A: Allocator>(reply: Reply<()>, view: &View, out: &mut Replies<A>) {
    match reply {
        Reply::Ok => out.put(b"ok\n"),
        Reply::Quiet => out.put(b"quiet\n"),
        Reply::Refused(refusal) => put_refusal(refusal, out),
        Reply::Missed => out.put(b"missed\n"),
        Reply::Got(number) => put_small(b"got ", number, out),
        Reply::Left(number) => put_small(b"left ", number, out),
        _ => {
            print_words(reply, view, out);
            out.put(b"\n");
        }
    }
}

/// Appends the words of a reply, without an LF. A reply that shows a view shows `view`.
#[inline(never)]
pub fn print_words<A: Allocator>(reply: Reply<()>, view: &View, out: &mut Replies<A>) {
    match reply {
        Reply::Ok => out.put(b"ok"),
        Reply::Quiet => out.put(b"quiet"),
        Reply::Stop => out.put(b"stop"),
        Reply::Right => out.put(b"right"),
        Reply::Down => out.put(b"down"),
        Reply::Place(place) => put_place(place, out),
        Reply::Proposed(number) => put_word(b"proposed ", number, out),
        Reply::Saw(()) => put_view(view, out),
        Reply::Named(name, ()) => put_word(b"named ", name, out),
        Reply::Spent => out.put(b"spent"),
        Reply::Missed => out.put(b"missed"),
        Reply::Got(number) => put_word(b"got ", u64::from(number), out),
        Reply::Left(number) => put_word(b"left ", u64::from(number), out),
        Reply::Value(value) => put_word(b"value ", value, out),
        Reply::Owner(owner) => put_owner(owner, out),
        Reply::Refused(refusal) => put_word(b"refused ", u64::from(refusal.number()), out),
    }
}

// Appends a word with its space, a small number in decimal, and an LF.
#[inline(always)]
fn put_small<A: Allocator>(word: &[u8], number: u32, out: &mut Replies<A>) {
    out.put(word);
    if number < 10 {
        out.put(&[b'0' + number as u8, b'\n']);
    } else if number < 100 {
        out.put(&[
            b'0' + (number / 10) as u8,
            b'0' + (number % 10) as u8,
            b'\n',
        ]);
    } else {
        put_number(u64::from(number), out);
        out.put(b"\n");
    }
}

// Appends the text of a refusal with its LF.
#[inline(always)]
fn put_refusal<A: Allocator>(refusal: Refusal, out: &mut Replies<A>) {
    put_small(b"refused ", u32::from(refusal.number()), out);
}

/// Appends the answer to a bad line, one line with its LF.
pub fn print_bad<A: Allocator>(bad: Bad, out: &mut Replies<A>) {
    out.put(&[b'b', b'a', b'd', b' ', b'0' + bad.number(), b'\n']);
}

/// Appends a number in decimal.
#[inline(always)]
pub fn put_number<A: Allocator>(number: u64, out: &mut Replies<A>) {
    if number < 10 {
        out.put(&[b'0' + number as u8]);
    } else {
        out.put(Buffer::new().format(number).as_bytes());
    }
}

/// Appends a word with its space, and a number in decimal.
#[inline(always)]
pub fn put_word<A: Allocator>(word: &[u8], number: u64, out: &mut Replies<A>) {
    out.put(word);
    put_number(number, out);
}

// Appends the words of a place.
fn put_place<A: Allocator>(place: Place, out: &mut Replies<A>) {
    out.put(b"place ");
    out.put(Buffer::new().format(place).as_bytes());
}

// Appends `owner` and the identity that has a name, or `none`.
fn put_owner<A: Allocator>(owner: Option<u64>, out: &mut Replies<A>) {
    match owner {
        Some(id) => put_word(b"owner ", id, out),
        None => out.put(b"owner none"),
    }
}

// Appends a pair of a view.
fn put_pair<A: Allocator>(pair: (u64, u64), out: &mut Replies<A>) {
    put_number(pair.0, out);
    out.put(b":");
    put_number(pair.1, out);
}

// Appends pairs of a view, each after a space.
fn put_pairs<A: Allocator>(pairs: &[(u64, u64)], out: &mut Replies<A>) {
    for pair in pairs {
        out.put(b" ");
        put_pair(*pair, out);
    }
}

// Appends the words of a view.
fn put_view<A: Allocator>(view: &View, out: &mut Replies<A>) {
    out.put(b"saw");
    put_pairs(view.pairs(), out);
}

/// Appends the pairs of a view, with a space between two.
pub fn put_shown<A: Allocator>(view: &View, out: &mut Replies<A>) {
    match view.pairs() {
        [] => {}
        [first, more @ ..] => {
            put_pair(*first, out);
            put_pairs(more, out);
        }
    }
}
