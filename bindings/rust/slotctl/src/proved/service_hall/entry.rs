// Erased by bindings/rust/erase from crates/service_hall/src/entry.rt, sha256 9b4e1057cff4f8a94d79dbdda379b623ebb1101a5afac89b5a9aeff8794cea88.
//! What a history stores of an exchange.

use crate::kit::alloc::Allocator;
use crate::kit::Vec;
use crate::proved::model_asked::event::Event;
use crate::proved::model_asked::reply::Reply;
use crate::proved::model_steps::view::View;

/// A reply of few bytes, or the index of one that shows a view or is of a rare kind.
#[derive(Clone, Copy)]
pub(crate) enum Short {
    Ok,
    Quiet,
    Proposed(u64),
    Missed,
    Got(u32),
    Left(u32),
    Value(u64),
    Apart(usize),
}

/// An event with its reply, in few bytes.
#[derive(Clone, Copy)]
pub(crate) struct Entry {
    pub(crate) event: Event,
    pub(crate) reply: Short,
}

/// Returns a reply in few bytes. A long one goes with its view to the end of `apart`.
pub(crate) fn shorten<A: Allocator>(
    apart: &mut Vec<Reply<View>, A>,
    reply: Reply<()>,
    view: &View,
) -> Short {
    match reply {
        Reply::Ok => Short::Ok,
        Reply::Quiet => Short::Quiet,
        Reply::Proposed(number) => Short::Proposed(number),
        Reply::Missed => Short::Missed,
        Reply::Got(number) => Short::Got(number),
        Reply::Left(number) => Short::Left(number),
        Reply::Value(value) => Short::Value(value),
        _ => {
            let at = apart.len();
            apart.push_reserved(reply.with(view));
            Short::Apart(at)
        }
    }
}

/// Returns the reply that `shorten` made short.
pub(crate) fn shown(apart: &[Reply<View>], short: Short) -> Reply<View> {
    match short {
        Short::Ok => Reply::Ok,
        Short::Quiet => Reply::Quiet,
        Short::Proposed(number) => Reply::Proposed(number),
        Short::Missed => Reply::Missed,
        Short::Got(number) => Reply::Got(number),
        Short::Left(number) => Reply::Left(number),
        Short::Value(value) => Reply::Value(value),
        Short::Apart(at) => match apart.get(at) {
            Some(reply) => *reply,
            None => Reply::Quiet,
        },
    }
}
