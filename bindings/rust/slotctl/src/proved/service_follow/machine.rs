// Erased by bindings/rust/erase from crates/service_follow/src/machine.rt, sha256 d7a7b500645a5ab53b0d6d85a257b56af11d4a997a8ba9b7fa67121c89947584.
//! A hall to which the entries of a log are applied.

use crate::kit::alloc::{AllocError, Global};
use crate::proved::model_asked::config::Config;
use crate::proved::model_steps::refusal::Refusal;
use crate::proved::model_steps::view::View;
use crate::proved::service_follow::marks::is_there;
use crate::proved::service_follow::noting::Noting;
use crate::proved::service_follow::reply_queue::ReplyQueue;
use crate::proved::service_hall::hall::Hall;
use crate::proved::service_hall::reads::Reads;
use crate::proved::service_hall::rules::Rules;
use crate::proved::service_log::machine::{ApplyFault, Machine};
use crate::proved::text_lines::replies::Replies;
use crate::proved::text_player::as_replies::AsReplies;
use crate::proved::text_player::responder::Responder;
use crate::proved::text_player::service::Service;

/// What ends a line.
const LF: u8 = 10;

/// Where it stands in the first line of an entry whether its reads are plain: behind a token, a space and a count.
const MARK: usize = 49;

/// Where it stands behind that what the entry bars: a space, and then the place of `widen`, and that of `begin` and `step`.
const BARS: usize = 55;

/// A hall to which the entries of a log are applied. An entry is a first line, which is passed over, and then lines of commands, each with
/// its LF: they are played over the hall in order, and what it says to them is put on a queue of replies. `quit` ends an entry. Where ` plain`
/// stands behind the token and the count of the first line, the hall stores no read of the entry. Behind that it may tell what the entry bars.
pub struct HallMachine {
    alloc: Global,
    noting: Noting,
    view: View,
    replies: Replies<Global>,
}

/// What stands behind the first line of an entry.
pub(crate) fn behind_first_line(entry: &[u8]) -> &[u8] {
    let mut rest = entry;
    while let Some((first, others)) = rest.split_first() {
        rest = others;
        if *first == LF {
            break;
        }
    }
    rest
}

/// Whether the history stores the reads of an entry, as its first line says.
fn reads_of(entry: &[u8]) -> Reads {
    if is_there(entry, MARK, b' ') && is_there(entry, MARK + 1, b'p') {
        Reads::Plain
    } else {
        Reads::Logged
    }
}

/// Whether an entry bars what this place of its first line tells of.
fn bars(entry: &[u8], place: usize) -> bool {
    is_there(entry, MARK, b' ') && is_there(entry, BARS, b' ') && is_there(entry, place, b'-')
}

/// Whether an entry gives tokens, as its first line says.
fn gives_tokens(entry: &[u8]) -> bool {
    is_there(entry, MARK, b' ') && is_there(entry, BARS, b' ') && is_there(entry, BARS + 3, b't')
}

/// The rules by which the lines of an entry are played, as its first line says.
fn rules_of(entry: &[u8]) -> Rules {
    Rules {
        reads: reads_of(entry),
        widening: !bars(entry, BARS + 1),
        naming: !bars(entry, BARS + 2),
        tokens: gives_tokens(entry),
    }
}

/// Plays lines over a service that notes what it is asked for. The text of the replies is let go.
pub(crate) fn play<D: Service<()>>(
    service: &mut D,
    responder: &mut Responder<Global, AsReplies>,
    view: &mut View,
    replies: &mut Replies<Global>,
    lines: &[u8],
) {
    let mut at = 0;
    while at < lines.len() {
        replies.clear();
        at += responder.take(&(), service, view, &lines[at..], replies);
    }
}

impl HallMachine {
    /// Makes a hall of this config with no event.
    ///
    /// # Errors
    ///
    /// The first that applies is returned:
    ///
    /// - `OutOfRange`: the config's world gives no names.
    /// - `NoMemory`: an allocation failed.
    pub fn new(alloc: Global, config: Config) -> Result<HallMachine, Refusal> {
        let noting = Noting::new(alloc, config)?;
        let Ok(replies) = Replies::new(alloc) else {
            return Err(Refusal::NoMemory);
        };
        Ok(HallMachine {
            alloc,
            noting,
            view: View::new(),
            replies,
        })
    }

    /// The hall.
    pub fn hall(&self) -> &Hall {
        self.noting.hall()
    }

    // Plays the lines of an entry, and has the queue of replies say what was said to them.
    fn play_entry(&mut self, entry: &[u8], reply_queue: &mut ReplyQueue) -> Result<(), AllocError> {
        let kind = self.noting.hall().config().world;
        let Ok(mut responder) = Responder::new(self.alloc, kind) else {
            return Err(AllocError);
        };
        self.noting.begin(rules_of(entry));
        play(
            &mut self.noting,
            &mut responder,
            &mut self.view,
            &mut self.replies,
            behind_first_line(entry),
        );
        self.noting.put_on(reply_queue)
    }
}

impl Machine for HallMachine {
    type Replies = ReplyQueue;

    fn apply(&mut self, entry: &[u8], reply_queue: &mut ReplyQueue) -> Result<(), ApplyFault> {
        match self.play_entry(entry, reply_queue) {
            Ok(()) => Ok(()),
            Err(_) => Err(ApplyFault::Memory),
        }
    }

    fn forget(reply_queue: &mut ReplyQueue) {
        reply_queue.clear();
    }
}
