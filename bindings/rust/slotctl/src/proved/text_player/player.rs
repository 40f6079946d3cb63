// Erased by bindings/rust/erase from crates/text_player/src/player.rt, sha256 675564fdd95f1666fe2db7d0f1630a2aa8ee7dc79a73d4a887bb8272066950f0.
//! A run under way: bytes in, replies out.

use crate::kit::alloc::Allocator;
use crate::kit::Clone;
use crate::proved::model_asked::config::Config;
use crate::proved::model_asked::kind::WorldKind;
use crate::proved::model_steps::refusal::NoMemory;
use crate::proved::model_steps::view::View;
use crate::proved::text_lines::fault::Fault;
use crate::proved::text_lines::replies::{Replies, HELD_REPLIES};
use crate::proved::text_lines::sink::Sink;
use crate::proved::text_player::as_record::print_header;
use crate::proved::text_player::form::{Form, TURN_ROOM};
use crate::proved::text_player::responder::Responder;
use crate::proved::text_player::service::Service;
use crate::proved::text_player::summary::Summary;

/// A run under way: one side of a transcript, with the replies that it has not written yet.
pub struct Player<A: Allocator, F: Form> {
    responder: Responder<A, F>,
    replies: Replies<A>,
}

impl<A: Allocator + Clone, F: Form> Player<A, F> {
    /// Makes a run that has read nothing. Later calls allocate only what the service allocates.
    ///
    /// # Errors
    ///
    /// `NoMemory`: an allocation failed.
    pub fn new(alloc: A, kind: WorldKind) -> Result<Player<A, F>, NoMemory> {
        let Ok(other) = alloc.clone() else {
            return Err(NoMemory);
        };
        let responder = Responder::new(other, kind)?;
        let replies = Replies::new(alloc)?;
        Ok(Player { responder, replies })
    }
}

impl<A: Allocator, F: Form> Player<A, F> {
    /// Returns the counts so far.
    pub fn summary(&self) -> Summary {
        self.responder.summary()
    }

    /// Returns true if and only if `quit` was answered.
    pub fn is_over(&self) -> bool {
        self.responder.is_over()
    }

    /// Takes the first line of these bytes with its LF, or all of them if none ends. Returns how many bytes it took.
    /// After `quit` it answers nothing.
    #[inline(always)]
    fn take<R, D: Service<R>>(
        &mut self,
        rt: &R,
        world: &mut D,
        view: &mut View,
        bytes: &[u8],
    ) -> usize {
        self.responder
            .take(rt, world, view, bytes, &mut self.replies)
    }

    /// Writes the replies that it holds.
    fn send<W: Sink>(&mut self, writer: &mut W) -> Result<(), Fault> {
        self.replies.send(writer)
    }

    /// Writes the first line of a record. The player holds no reply.
    ///
    /// # Errors
    ///
    /// `Fault::Write`: a write failed or took nothing. The writer has gained a prefix of the line.
    pub fn write_header<W: Sink>(&mut self, config: Config, writer: &mut W) -> Result<(), Fault> {
        print_header(config, &mut self.replies);
        self.replies.send(writer)
    }

    /// Makes room for one more turn. If there is too little, it writes the replies that it holds.
    fn make_room<W: Sink>(&mut self, writer: &mut W) -> Result<(), Fault> {
        if self.replies.len() <= HELD_REPLIES - TURN_ROOM {
            return Ok(());
        }
        self.send(writer)
    }

    /// Takes bytes that were read, has the service answer their lines, and writes all replies.
    ///
    /// # Errors
    ///
    /// `Fault::Write`: a write failed or took nothing. Part of the lines are answered, and a prefix of the text is
    /// written.
    pub fn feed<R, D: Service<R>, W: Sink>(
        &mut self,
        rt: &R,
        world: &mut D,
        chunk: &[u8],
        writer: &mut W,
    ) -> Result<(), Fault> {
        let mut view = View::new();
        let mut at = 0;
        while at < chunk.len() {
            self.make_room(writer)?;
            at += self.take(rt, world, &mut view, &chunk[at..]);
        }
        self.send(writer)
    }

    /// Takes the end of the input, and writes the last reply. Bytes after the last LF are a line too.
    ///
    /// # Errors
    ///
    /// `Fault::Write`: a write failed or took nothing. A prefix of the text is written.
    pub fn finish<R, D: Service<R>, W: Sink>(
        &mut self,
        rt: &R,
        world: &mut D,
        writer: &mut W,
    ) -> Result<(), Fault> {
        self.end_line(rt, world, &mut View::new());
        self.send(writer)
    }

    /// Answers the bytes after the last LF, if there are any.
    fn end_line<R, D: Service<R>>(&mut self, rt: &R, world: &mut D, view: &mut View) {
        self.responder.finish(rt, world, view, &mut self.replies);
    }
}
