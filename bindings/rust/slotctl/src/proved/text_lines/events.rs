// Erased by bindings/rust/erase from crates/text_lines/src/events.rt, sha256 d9f0bf4380c225d41608092bc234e9bf19a3717b308270eccbc640dc9999ed25.
//! From events to the lines that ask for them.

use crate::kit::alloc::Allocator;
use crate::proved::model_asked::event::Event;
use crate::proved::text_lines::print::put_word;
use crate::proved::text_lines::replies::Replies;

/// The most bytes of an event's words.
pub const EVENT_ROOM: usize = 45;

/// Appends the words of the line that asks for an event, without its LF.
pub fn print_event<A: Allocator>(event: Event, out: &mut Replies<A>) {
    match event {
        Event::Begin(id) => put_word(b"begin ", id, out),
        Event::Step(id) => put_word(b"step ", id, out),
        Event::Enter(id) => put_word(b"enter ", id, out),
        Event::Probe(id) => put_word(b"probe ", id, out),
        Event::Seek(id) => put_word(b"seek ", id, out),
        Event::Leave(id) => put_word(b"leave ", id, out),
        Event::Put(id, value) => {
            put_word(b"put ", id, out);
            put_word(b" ", value, out);
        }
        Event::Get(id) => put_word(b"get ", id, out),
        Event::Widen(size) => put_word(b"widen ", size, out),
    }
}
