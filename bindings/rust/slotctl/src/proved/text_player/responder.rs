// Erased by bindings/rust/erase from crates/text_player/src/responder.rt, sha256 ab3d3a135bef907f40ebeed8c4cbe02ab861ba67b20560519f1ed61c1564f744.
//! One side of a transcript: it takes bytes, makes requests of a service that others may share, and appends replies to
//! a buffer.

use crate::kit::alloc::Allocator;
use crate::kit::memchr::memchr;
use crate::proved::model_asked::bad::Bad;
use crate::proved::model_asked::command::Command;
use crate::proved::model_asked::event::Event;
use crate::proved::model_asked::kind::WorldKind;
use crate::proved::model_asked::reply::Reply;
use crate::proved::model_steps::refusal::NoMemory;
use crate::proved::model_steps::view::View;
use crate::proved::text_lines::line_buffer::LineBuffer;
use crate::proved::text_lines::parse::parse_line;
use crate::proved::text_lines::quick::quick_command;
use crate::proved::text_lines::replies::Replies;
use crate::proved::text_player::form::{Form, TURN_ROOM};
use crate::proved::text_player::service::Service;
use crate::proved::text_player::summary::Summary;
use std::marker::PhantomData;

/// The byte that ends a line.
const LF: u8 = 10;

/// One side of a transcript under way: the kind of world, the line so far, the counts, and whether `quit` was answered.
///
/// It takes some 200 bytes, so that a server can have one for each connection. Its replies go to a buffer that the
/// caller lends.
pub struct Responder<A: Allocator, F: Form> {
    kind: WorldKind,
    line: LineBuffer<A>,
    summary: Summary,
    over: bool,
    form: PhantomData<F>,
}

impl<A: Allocator, F: Form> Responder<A, F> {
    /// Makes a transcript without a turn. Later calls allocate only what the service allocates.
    ///
    /// # Errors
    ///
    /// `NoMemory`: the allocation of room for a line failed.
    pub fn new(alloc: A, kind: WorldKind) -> Result<Responder<A, F>, NoMemory> {
        let line = LineBuffer::new(alloc)?;
        Ok(Responder {
            kind,
            line,
            summary: Summary::new(),
            over: false,
            form: PhantomData,
        })
    }

    /// Returns the counts so far.
    pub fn summary(&self) -> Summary {
        self.summary
    }

    /// Returns true if and only if `quit` was answered.
    pub fn is_over(&self) -> bool {
        self.over
    }

    /// Counts the reply to an event, and appends the text of both. A reply that shows a view shows `view`.
    #[inline(always)]
    fn hold_answered<B: Allocator>(
        &mut self,
        event: Event,
        reply: Reply<()>,
        view: &View,
        out: &mut Replies<B>,
    ) {
        F::put_answered(event, reply, view, out);
        self.summary.count_reply(reply);
    }

    /// Does what `hold_answered` does, for the event that this line asks for.
    #[inline(always)]
    fn hold_asked<B: Allocator>(
        &mut self,
        line: &[u8],
        event: Event,
        reply: Reply<()>,
        view: &View,
        out: &mut Replies<B>,
    ) {
        F::put_asked(line, event, reply, view, out);
        self.summary.count_reply(reply);
    }

    /// Counts the reply to a question for the owner of name `n`, and appends its text.
    #[inline(always)]
    fn hold_reported<B: Allocator>(
        &mut self,
        n: u64,
        reply: Reply<()>,
        view: &View,
        out: &mut Replies<B>,
    ) {
        F::put_reported(n, reply, view, out);
        self.summary.count_reply(reply);
    }

    /// Counts `quit`, and appends its text.
    fn hold_ended<B: Allocator>(&mut self, out: &mut Replies<B>) {
        F::put_ended(out);
        self.summary.count_reply(Reply::Ok);
    }

    /// Counts a bad line, and appends its text.
    fn hold_misread<B: Allocator>(&mut self, bad: Bad, out: &mut Replies<B>) {
        F::put_misread(bad, out);
        self.summary.count_bad(bad);
    }

    /// Asks the service for the owner of name `n`, counts the reply, and appends its text. It is a function of its own,
    /// since a whole reply takes a kilobyte.
    #[inline(never)]
    fn tell_owner<R, D: Service<R>, B: Allocator>(
        &mut self,
        rt: &R,
        service: &mut D,
        n: u64,
        view: &mut View,
        out: &mut Replies<B>,
    ) {
        let reply = service.owner(rt, n).shorten(view);
        self.hold_reported(n, reply, view, out);
    }

    /// Answers what a line means, counts the answer, and appends the text of both. `quit` ends the transcript.
    #[inline(always)]
    fn answer<R, D: Service<R>, B: Allocator>(
        &mut self,
        rt: &R,
        service: &mut D,
        view: &mut View,
        meaning: Result<Command, Bad>,
        out: &mut Replies<B>,
    ) {
        match meaning {
            Ok(Command::Event(event)) => {
                let reply = service.apply(rt, event, view);
                self.hold_answered(event, reply, view, out);
            }
            Ok(Command::Owner(n)) => self.tell_owner(rt, service, n, view, out),
            Ok(Command::Quit) => {
                self.over = true;
                self.hold_ended(out);
            }
            Err(bad) => self.hold_misread(bad, out),
        }
    }

    /// Answers the event that this line asks for, counts the reply, and appends the text of both.
    #[inline(always)]
    fn answer_event<R, D: Service<R>, B: Allocator>(
        &mut self,
        rt: &R,
        service: &mut D,
        view: &mut View,
        line: &[u8],
        event: Event,
        out: &mut Replies<B>,
    ) {
        let reply = service.apply(rt, event, view);
        self.hold_asked(line, event, reply, view, out);
    }

    /// Answers the line so far, which is whole, and starts the next.
    fn answer_line<R, D: Service<R>, B: Allocator>(
        &mut self,
        rt: &R,
        service: &mut D,
        view: &mut View,
        out: &mut Replies<B>,
    ) {
        let meaning = self.line.meaning(self.kind);
        self.line.clear();
        self.answer(rt, service, view, meaning, out);
    }

    /// Takes the first line of these bytes with its LF, or all of them if none ends. Returns how many bytes it took.
    ///
    /// It appends the answer of the service, at most `TURN_ROOM` bytes, to `out`. After `quit` it answers nothing.
    #[inline(never)]
    pub fn take<R, D: Service<R>, B: Allocator>(
        &mut self,
        rt: &R,
        service: &mut D,
        view: &mut View,
        bytes: &[u8],
        out: &mut Replies<B>,
    ) -> usize {
        if self.over {
            return bytes.len();
        }
        if self.line.is_empty() {
            if let Some((Command::Event(event), end)) = quick_command(bytes, self.kind, LF) {
                self.answer_event(rt, service, view, &bytes[..end], event, out);
                return end + 1;
            }
        }
        self.take_slowly(rt, service, view, bytes, out)
    }

    /// Takes lines of these bytes while `out`, with `TURN_ROOM` bytes more, stays within `most` bytes. Returns how many
    /// bytes it took.
    ///
    /// It leaves bytes only if `out` has no room for one more turn. The next call takes the bytes from there on.
    pub fn take_some<R, D: Service<R>, B: Allocator>(
        &mut self,
        rt: &R,
        service: &mut D,
        view: &mut View,
        bytes: &[u8],
        most: usize,
        out: &mut Replies<B>,
    ) -> usize {
        let mut at = 0;
        while at < bytes.len() && TURN_ROOM <= most && out.len() <= most - TURN_ROOM {
            at += self.take(rt, service, view, &bytes[at..], out);
        }
        at
    }

    /// Does what `take` does for any line, while the transcript goes on. A line that is whole in these bytes is not
    /// copied.
    #[inline(never)]
    fn take_slowly<R, D: Service<R>, B: Allocator>(
        &mut self,
        rt: &R,
        service: &mut D,
        view: &mut View,
        bytes: &[u8],
        out: &mut Replies<B>,
    ) -> usize {
        let Some(end) = memchr(LF, bytes) else {
            self.line.extend(bytes);
            return bytes.len();
        };
        if self.line.is_empty() {
            let meaning = parse_line(&bytes[..end], self.kind);
            self.answer(rt, service, view, meaning, out);
            return end + 1;
        }
        self.line.extend(&bytes[..end]);
        self.answer_line(rt, service, view, out);
        end + 1
    }

    /// Takes the end of the input. Bytes after the last LF are a line too.
    pub fn finish<R, D: Service<R>, B: Allocator>(
        &mut self,
        rt: &R,
        service: &mut D,
        view: &mut View,
        out: &mut Replies<B>,
    ) {
        if !self.over && !self.line.is_empty() {
            self.answer_line(rt, service, view, out);
        }
    }
}
