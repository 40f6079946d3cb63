// Erased by bindings/rust/erase from crates/tool_work/src/page/standing.rt, sha256 50b3ded36ecf72682ea376e7a5020a3b7f6456957d467465b5b3a5e67959cfa5.
//! Where an identity stands on a desk.

use crate::kit::alloc::{AllocError, Global};
use crate::proved::model_asked::event::Event;
use crate::proved::model_pool::slots::slots::Slots;
use crate::proved::model_pool::stay::Stay;
use crate::proved::model_steps::place::Place;
use crate::proved::model_steps::refusal::Refusal;
use crate::proved::text_records::text::Text;
use crate::proved::text_worlds::desk::coming::Coming;
use crate::proved::text_worlds::desk::desk::Desk;
use crate::proved::tool_work::page::access::{put_access, put_word_of_place};
use crate::proved::tool_work::page::form::Form;

/// Where an identity stands, as a renaming world and a pool see it.
#[derive(Clone, Copy, Debug)]
pub struct Standing {
    /// The access that it makes next, where it has begun.
    pub next: Option<Coming>,
    /// Its place, once it has one.
    pub place: Option<Place>,
    /// Its name, once it has one.
    pub name: Option<u64>,
    /// Whether it has used up its rounds.
    pub is_spent: bool,
    /// How it competes for the pool, where it does.
    pub stay: Option<Stay>,
    /// What stands in the slot of the number that it holds, or why it holds none.
    pub value: Result<u64, Refusal>,
}

/// Whether a step is refused since all rounds are used up.
fn is_spent_by(refusal: Option<Refusal>) -> bool {
    matches!(refusal, Some(Refusal::Spent))
}

/// What stands in the slot of the number that an identity holds, or why it holds none.
fn value_of(slots: &Slots<u64, Global>, id: u64) -> Result<u64, Refusal> {
    slots.get(id).copied()
}

impl Standing {
    /// Where an identity stands on this desk.
    pub(crate) fn on(desk: &Desk<Global>, id: u64) -> Standing {
        Standing {
            next: desk.coming(id),
            place: desk.place_of(id),
            name: desk.name_of(id),
            is_spent: is_spent_by(desk.refusal(Event::Step(id))),
            stay: desk.slots().pool().stay_of(id),
            value: value_of(desk.slots(), id),
        }
    }
}

/// Appends the words of the place that one has.
fn put_own_place(place: Option<Place>, out: &mut Text) -> Result<(), AllocError> {
    match place {
        None => Ok(()),
        Some(place) => put_word_of_place(b"place ", place, out),
    }
}

/// Appends the words of the name that one has, or that its rounds are used up.
fn put_own_name(name: Option<u64>, is_spent: bool, out: &mut Text) -> Result<(), AllocError> {
    match name {
        Some(name) => out.put_word(b"name ", name),
        None => {
            if is_spent {
                out.put(b"spent")
            } else {
                Ok(())
            }
        }
    }
}

/// Appends the words of how one competes.
fn put_stay(stay: Option<Stay>, out: &mut Text) -> Result<(), AllocError> {
    match stay {
        None => Ok(()),
        Some(Stay::Seeking(next)) => out.put_word(b"probes ", u64::from(next)),
        Some(Stay::Settled(number)) => out.put_word(b"holds ", u64::from(number)),
    }
}

/// Appends what stands in the slot of the number that one holds.
fn put_value(value: Result<u64, Refusal>, out: &mut Text) -> Result<(), AllocError> {
    match value {
        Ok(value) => out.put_word(b" ", value),
        Err(_) => Ok(()),
    }
}

/// Appends the words of where one stands. An error where a growth was refused.
pub(crate) fn put_standing(
    form: Form,
    standing: &Standing,
    out: &mut Text,
) -> Result<(), AllocError> {
    put_access(standing.next, out)?;
    out.put(form.gap())?;
    put_own_place(standing.place, out)?;
    out.put(form.gap())?;
    put_own_name(standing.name, standing.is_spent, out)?;
    out.put(form.gap())?;
    put_stay(standing.stay, out)?;
    put_value(standing.value, out)
}
