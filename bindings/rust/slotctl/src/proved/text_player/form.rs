// Erased by bindings/rust/erase from crates/text_player/src/form.rt, sha256 85f9643f94c79d8c62482bc1cccddc720f776f9fa6789e097ba30fc15af7fb2a.
//! How a run writes its turns.

use crate::kit::alloc::Allocator;
use crate::proved::model_asked::bad::Bad;
use crate::proved::model_asked::event::Event;
use crate::proved::model_asked::reply::Reply;
use crate::proved::model_steps::view::View;
use crate::proved::text_lines::replies::Replies;

/// The most bytes of the text of a turn: a command, a reply, and a view of 64 pairs.
pub const TURN_ROOM: usize = 5_460;

/// How a run writes its turns. Each text has at most `TURN_ROOM` bytes.
pub trait Form: Sized {
    /// Appends the text of an event with its reply. A reply that shows a view shows `view`.
    fn put_answered<A: Allocator>(
        event: Event,
        reply: Reply<()>,
        view: &View,
        out: &mut Replies<A>,
    );

    /// Appends what `put_answered` appends, for the event that `line` asks for. The line has no LF. It can be copied
    /// where the text has the words of the event.
    fn put_asked<A: Allocator>(
        line: &[u8],
        event: Event,
        reply: Reply<()>,
        view: &View,
        out: &mut Replies<A>,
    );

    /// Appends the text of the reply to a question for the owner of name `n`. A reply that shows a view shows `view`.
    fn put_reported<A: Allocator>(n: u64, reply: Reply<()>, view: &View, out: &mut Replies<A>);

    /// Appends the text of `quit`.
    fn put_ended<A: Allocator>(out: &mut Replies<A>);

    /// Appends the text of a bad line.
    fn put_misread<A: Allocator>(bad: Bad, out: &mut Replies<A>);
}
