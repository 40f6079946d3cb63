// Erased by bindings/rust/erase from crates/text_records/src/reported.rt, sha256 b6e759b26805a24a679c29baccc62704a71d48ceda914f7d803d181c98ae4e30.
//! What a record reports of the reply to an event.

use crate::proved::model_asked::event::Event;
use crate::proved::model_steps::place::Place;
use crate::proved::text_records::pairs::Pairs;

/// A reply as a record spells it. Its numbers and views need not be those of any object.
#[derive(Debug)]
pub enum Reported {
    /// `ok`
    Ok,
    /// `quiet`
    Quiet,
    /// `stop`
    Stop,
    /// `right`
    Right,
    /// `down`
    Down,
    /// `place P`
    Place(Place),
    /// `proposed S`
    Proposed(u64),
    /// `saw ID:S ID:S ..`
    Saw(Pairs),
    /// `named N`, and the pairs of the view by which the name was given, if they are written
    Named(u64, Option<Pairs>),
    /// `spent`
    Spent,
    /// `missed`
    Missed,
    /// `got N`
    Got(u64),
    /// `left N`
    Left(u64),
    /// `value V`
    Value(u64),
    /// `owner ID` or `owner none`
    Owner(Option<u64>),
    /// `refused N`
    Refused(u64),
}

/// Whether an event is a step.
pub fn is_step(event: Event) -> bool {
    matches!(event, Event::Step(_))
}

/// Whether the event's reply is `ok` if it is accepted.
fn is_done(event: Event) -> bool {
    matches!(
        event,
        Event::Begin(_) | Event::Enter(_) | Event::Put(_, _) | Event::Widen(_)
    )
}

impl Reported {
    /// Whether it is a name.
    pub fn is_name(&self) -> bool {
        matches!(self, Reported::Named(_, _))
    }

    /// Whether it is a reply to this event's command: one of the command's own, or a refusal.
    pub fn is_reply_of(&self, event: Event) -> bool {
        match self {
            Reported::Ok => is_done(event),
            Reported::Quiet => is_step(event),
            Reported::Stop => false,
            Reported::Right => false,
            Reported::Down => false,
            Reported::Place(_) => is_step(event),
            Reported::Proposed(_) => is_step(event),
            Reported::Saw(_) => is_step(event),
            Reported::Named(_, _) => is_step(event),
            Reported::Spent => is_step(event),
            Reported::Missed => matches!(event, Event::Probe(_)),
            Reported::Got(_) => matches!(event, Event::Probe(_) | Event::Seek(_)),
            Reported::Left(_) => matches!(event, Event::Leave(_)),
            Reported::Value(_) => matches!(event, Event::Get(_)),
            Reported::Owner(_) => false,
            Reported::Refused(_) => true,
        }
    }
}
