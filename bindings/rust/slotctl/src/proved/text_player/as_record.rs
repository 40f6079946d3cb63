// Erased by bindings/rust/erase from crates/text_player/src/as_record.rt, sha256 81a14cc2de76cd7662b68ceba5f302993f6da9acb3f9a46dd8ae34e523a501a7.
//! The form of records.

use crate::kit::alloc::Allocator;
use crate::proved::model_asked::bad::Bad;
use crate::proved::model_asked::config::Config;
use crate::proved::model_asked::event::Event;
use crate::proved::model_asked::kind::WorldKind;
use crate::proved::model_asked::reply::Reply;
use crate::proved::model_steps::view::View;
use crate::proved::text_lines::events::print_event;
use crate::proved::text_lines::print::{print_words, put_number, put_shown, put_word};
use crate::proved::text_lines::replies::Replies;
use crate::proved::text_player::form::Form;

/// The form of a record: each event with its reply is a line of JSON. The other turns have no text.
pub struct AsRecord;

impl Form for AsRecord {
    fn put_answered<A: Allocator>(
        event: Event,
        reply: Reply<()>,
        view: &View,
        out: &mut Replies<A>,
    ) {
        out.put(b"{\"command\":\"");
        print_event(event, out);
        put_replied(reply, view, out);
    }

    #[inline(always)]
    fn put_asked<A: Allocator>(
        line: &[u8],
        _event: Event,
        reply: Reply<()>,
        view: &View,
        out: &mut Replies<A>,
    ) {
        out.put(b"{\"command\":\"");
        out.put(line);
        put_replied(reply, view, out);
    }

    fn put_reported<A: Allocator>(_n: u64, _reply: Reply<()>, _view: &View, _out: &mut Replies<A>) {
    }

    fn put_ended<A: Allocator>(_out: &mut Replies<A>) {}

    fn put_misread<A: Allocator>(_bad: Bad, _out: &mut Replies<A>) {}
}

/// Appends what follows the words of an event in its line. It appends the commonest replies by one put.
#[inline(always)]
fn put_replied<A: Allocator>(reply: Reply<()>, view: &View, out: &mut Replies<A>) {
    match reply {
        Reply::Ok => out.put(b"\",\"reply\":\"ok\"}\n"),
        Reply::Quiet => out.put(b"\",\"reply\":\"quiet\"}\n"),
        Reply::Missed => out.put(b"\",\"reply\":\"missed\"}\n"),
        Reply::Got(number) => put_small_end(b"\",\"reply\":\"got ", number, out),
        Reply::Left(number) => put_small_end(b"\",\"reply\":\"left ", number, out),
        Reply::Refused(refusal) => {
            put_small_end(b"\",\"reply\":\"refused ", u32::from(refusal.number()), out);
        }
        _ => put_any_replied(reply, view, out),
    }
}

/// Appends these bytes, a number of few digits in decimal, and the end of a line that shows no view.
#[inline(always)]
fn put_small_end<A: Allocator>(front: &[u8], number: u32, out: &mut Replies<A>) {
    out.put(front);
    if number < 10 {
        out.put(&[b'0' + number as u8, b'"', b'}', b'\n']);
    } else if number < 100 {
        out.put(&[
            b'0' + (number / 10) as u8,
            b'0' + (number % 10) as u8,
            b'"',
            b'}',
            b'\n',
        ]);
    } else {
        put_number(u64::from(number), out);
        out.put(b"\"}\n");
    }
}

/// Does what `put_replied` does, for any reply.
#[inline(never)]
fn put_any_replied<A: Allocator>(reply: Reply<()>, view: &View, out: &mut Replies<A>) {
    out.put(b"\",\"reply\":\"");
    print_words(reply, view, out);
    out.put(b"\"");
    put_name_view(reply, view, out);
    out.put(b"}\n");
}

/// Appends the view by which a name was given, if the reply is a name. Otherwise it appends nothing.
fn put_name_view<A: Allocator>(reply: Reply<()>, view: &View, out: &mut Replies<A>) {
    if let Reply::Named(_, ()) = reply {
        out.put(b",\"view\":\"");
        put_shown(view, out);
        out.put(b"\"");
    }
}

/// Appends the name of a world.
fn put_world<A: Allocator>(world: WorldKind, out: &mut Replies<A>) {
    out.put(world.name().as_bytes());
}

/// Appends the first line of a record, with its LF.
pub fn print_header<A: Allocator>(config: Config, out: &mut Replies<A>) {
    put_word(b"{\"format\":\"slot-record\",\"k\":", config.k, out);
    put_word(b",\"limit\":", config.limit, out);
    put_word(b",\"m\":", config.m, out);
    out.put(b",\"version\":2,\"world\":\"");
    put_world(config.world, out);
    out.put(b"\"}\n");
}
