// Erased by bindings/rust/erase from crates/service_loop/src/searching.rt, sha256 51d22be28eb4393e9fb2e359bc7a81354518d2d633dac41dc2e10bc29a6903f8.
//! What the server says until an identity holds a number: `seek` once in the wide world, elsewhere `probe` as often as it takes.

use crate::proved::model_asked::config::MOST_NUMBERS;
use crate::proved::model_asked::event::Event;

/// The event by which an identity searches for a number.
pub(crate) fn searching(wide: bool, identity: u64) -> Event {
    if wide {
        Event::Seek(identity)
    } else {
        Event::Probe(identity)
    }
}

/// How often it is said at most: once in the wide world, elsewhere as often as there are numbers.
pub(crate) fn most_said(wide: bool) -> usize {
    if wide {
        1
    } else {
        MOST_NUMBERS
    }
}
