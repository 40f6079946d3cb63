// Erased by bindings/rust/erase from crates/text_player/src/as_replies.rt, sha256 170adec46d45fbc577f1430f7f4510e236610fe4b93c8da32824476a4c4ccc78.
//! The form of replies.

use crate::kit::alloc::Allocator;
use crate::proved::model_asked::bad::Bad;
use crate::proved::model_asked::event::Event;
use crate::proved::model_asked::reply::Reply;
use crate::proved::model_steps::view::View;
use crate::proved::text_lines::print::{print_bad, print_reply};
use crate::proved::text_lines::replies::Replies;
use crate::proved::text_player::form::Form;

/// The form of replies: each turn has the text of its reply, or of the answer to a bad line.
pub struct AsReplies;

impl Form for AsReplies {
    #[inline(always)]
    fn put_answered<A: Allocator>(
        _event: Event,
        reply: Reply<()>,
        view: &View,
        out: &mut Replies<A>,
    ) {
        print_reply(reply, view, out);
    }

    #[inline(always)]
    fn put_asked<A: Allocator>(
        _line: &[u8],
        _event: Event,
        reply: Reply<()>,
        view: &View,
        out: &mut Replies<A>,
    ) {
        print_reply(reply, view, out);
    }

    #[inline(always)]
    fn put_reported<A: Allocator>(_n: u64, reply: Reply<()>, view: &View, out: &mut Replies<A>) {
        print_reply(reply, view, out);
    }

    fn put_ended<A: Allocator>(out: &mut Replies<A>) {
        out.put(b"ok\n");
    }

    fn put_misread<A: Allocator>(bad: Bad, out: &mut Replies<A>) {
        print_bad(bad, out);
    }
}
