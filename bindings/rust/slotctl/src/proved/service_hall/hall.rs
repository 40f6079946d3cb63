// Erased by bindings/rust/erase from crates/service_hall/src/hall.rt, sha256 2362c9e75d8d521aa3da2fb22ef796faccac29dcce7fb4803fa9a9b26f846c70.
//! A desk with its history.

use crate::kit::alloc::Global;
use crate::proved::model_asked::config::Config;
use crate::proved::model_asked::event::Event;
use crate::proved::model_asked::exchange::Exchange;
use crate::proved::model_asked::reply::Reply;
use crate::proved::model_pool::slots::slots::Slots;
use crate::proved::model_steps::refusal::Refusal;
use crate::proved::model_steps::view::View;
use crate::proved::service_hall::log::Log;
use crate::proved::service_hall::raising::token_reply;
use crate::proved::service_hall::rules::{Rules, Way};
use crate::proved::text_worlds::desk::desk::Desk;

/// The most events of a history.
pub const MOST_EVENTS: usize = 1_000_000;

/// A value that is dropped by what its type says of that, and not by its parts.
struct Held<T> {
    desk: T,
}

/// A desk with its history: the list of its accepted events and their replies. It stores no refused event.
pub struct Hall {
    config: Config,
    held: Held<Desk<Global>>,
    history: Log<Global>,
}

impl Hall {
    /// Makes a hall of this config with no event.
    ///
    /// # Errors
    ///
    /// The first that applies is returned:
    ///
    /// - `OutOfRange`: the config's world gives no names.
    /// - `NoMemory`: an allocation failed.
    pub fn new(alloc: Global, config: Config) -> Result<Self, Refusal> {
        if !config.world.gives_names() {
            return Err(Refusal::OutOfRange);
        }
        // The desk last, since each later exit has code that takes it apart.
        let history = Log::new(alloc)?;
        let desk = Desk::new(alloc, config)?;
        Ok(Hall {
            config,
            held: Held { desk },
            history,
        })
    }

    /// Returns the config for which the hall was opened.
    pub fn config(&self) -> Config {
        self.config
    }

    /// Returns the number of events in the history: at most 1,000,000.
    pub fn len(&self) -> usize {
        self.history.len()
    }

    /// Returns the event at a place of the history, from 0, with its reply. Returns `None` if the history is shorter.
    pub fn get(&self, place: usize) -> Option<Exchange> {
        self.history.get(place)
    }

    /// Returns why `apply` would refuse an event, failed allocations aside, or `None` if it would accept it.
    ///
    /// The desk's refusals come first. `HistoryFull` comes last: the history has 1,000,000 events.
    pub fn refusal(&self, event: Event) -> Option<Refusal> {
        if let Some(refusal) = self.held.desk.refusal(event) {
            return Some(refusal);
        }
        if self.history.len() >= MOST_EVENTS {
            Some(Refusal::HistoryFull)
        } else {
            None
        }
    }

    /// Does what `apply` does, and returns a reply of few bytes. A reply that shows a view shows the one that this call
    /// stores in `view`.
    pub fn apply_short(&mut self, event: Event, view: &mut View) -> Reply<()> {
        if let Some(refusal) = self.refusal(event) {
            return Reply::Refused(refusal);
        }
        if !self.history.reserve() {
            return Reply::Refused(Refusal::NoMemory);
        }
        let reply = self.held.desk.apply_short(event, view);
        if !reply.is_refusal() {
            self.history.push_reserved(event, reply, view);
        }
        reply
    }

    /// Returns the reply of the desk to `get` of an identity, and stores nothing: the hall stays as it is.
    ///
    /// It is the reply of `apply` to this event, but it is returned even if the history is full.
    ///
    /// The reply is a refusal if the identity holds no number. The first that applies is returned:
    ///
    /// - `NotCompeting`: the identity does not compete.
    /// - `NotHolding`: it competes and holds no number.
    pub fn read(&self, id: u64) -> Reply<()> {
        Reply::of_value(self.held.desk.slots().get(id).copied())
    }

    /// Returns the next token of the number that an identity holds: one more than its slot has. It is `None` if the slot has the greatest value.
    ///
    /// Of an identity that holds no number it is 1.
    pub fn next_token(&self, id: u64) -> Option<u64> {
        self.held
            .desk
            .slots()
            .get(id)
            .copied()
            .unwrap_or(0)
            .checked_add(1)
    }

    /// Puts the next token into the slot of the number that an identity holds, and returns it (`next_token`).
    ///
    /// The history stores a `put` of that token. The reply is `Value` with the token, or the refusal of the `put`. It is `OutOfRange` if there is no next
    /// token.
    pub fn raise(&mut self, id: u64, view: &mut View) -> Reply<()> {
        match self.next_token(id) {
            Some(token) => token_reply(token, self.apply_short(Event::Put(id, token), view)),
            None => Reply::Refused(Refusal::OutOfRange),
        }
    }

    /// Takes an event by rules: it does what `read` does if the event is a `get` and reads are plain, what `raise` does if it is a `put` and tokens are
    /// given, and what `apply_short` does if it is another that is admitted. Any other is refused with `OutOfRange`, and changes nothing.
    pub fn serve_short(&mut self, rules: Rules, event: Event, view: &mut View) -> Reply<()> {
        match rules.way_of(event) {
            Way::Applied => self.apply_short(event, view),
            Way::Read(id) => self.read(id),
            Way::Raised(id) => self.raise(id, view),
            Way::Barred => Reply::Refused(Refusal::OutOfRange),
        }
    }

    /// Returns the pool and its slots, for observers.
    pub fn slots(&self) -> &Slots<u64, Global> {
        self.held.desk.slots()
    }

    /// Returns the owner of a name, or that no participant has it. This changes nothing.
    ///
    /// The reply is the refusal `OutOfRange` if the number is not from 1 to `2m - 1`, for m participants.
    pub fn owner(&self, number: u64) -> Reply<View> {
        self.held.desk.owner(number)
    }
}
