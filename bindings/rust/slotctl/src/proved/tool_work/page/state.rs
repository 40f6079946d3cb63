// Erased by bindings/rust/erase from crates/tool_work/src/page/state.rt, sha256 406272984fba38d20bb5048ffe936531f1636d3d004b1a1be04c40ee683dec60.
//! All that a desk holds.

use crate::kit::alloc::{AllocError, Global};
use crate::proved::model_asked::reply::Reply;
use crate::proved::model_pool::competitor::Competitor;
use crate::proved::model_steps::place::Place;
use crate::proved::model_steps::view::View;
use crate::proved::text_records::text::Text;
use crate::proved::text_worlds::desk::coming::Register;
use crate::proved::text_worlds::desk::desk::Desk;
use crate::proved::tool_work::page::access::put_register;
use crate::proved::tool_work::page::form::Form;
use crate::proved::tool_work::page::standing::{put_standing, Standing};

/// The most names that are given: 2m - 1 for 64 participants.
pub const MOST_NAMES: u64 = 127;

/// Appends where an identity stands.
fn put_person(form: Form, desk: &Desk<Global>, id: u64, out: &mut Text) -> Result<(), AllocError> {
    out.put_word(form.begin(), id)?;
    out.put(form.colon())?;
    put_standing(form, &Standing::on(desk, id), out)?;
    out.put(form.end())
}

/// Appends where a competitor stands who has not begun.
fn put_stranger(
    form: Form,
    desk: &Desk<Global>,
    competitor: &Competitor,
    out: &mut Text,
) -> Result<(), AllocError> {
    if desk.coming(competitor.identity).is_some() {
        return Ok(());
    }
    put_person(form, desk, competitor.identity, out)
}

/// Appends where each of these competitors stands who has not begun.
fn put_strangers(
    form: Form,
    desk: &Desk<Global>,
    competitors: &[Competitor],
    out: &mut Text,
) -> Result<(), AllocError> {
    for competitor in competitors {
        put_stranger(form, desk, competitor, out)?;
    }
    Ok(())
}

/// Appends what stands in a register, where anything may.
fn put_held(
    form: Form,
    desk: &Desk<Global>,
    register: Register,
    out: &mut Text,
) -> Result<(), AllocError> {
    let Some(word) = desk.held(register) else {
        return Ok(());
    };
    out.put(form.begin())?;
    put_register(register, out)?;
    out.put_word(form.colon(), word)?;
    out.put(form.end())
}

/// Appends what stands in the registers of a place.
fn put_place_facts(
    form: Form,
    desk: &Desk<Global>,
    place: Place,
    out: &mut Text,
) -> Result<(), AllocError> {
    put_held(form, desk, Register::X(place), out)?;
    put_held(form, desk, Register::Y(place), out)?;
    put_held(form, desk, Register::Mark(place), out)?;
    put_held(form, desk, Register::Segment(place), out)?;
    Ok(())
}

/// Appends what stands in the registers of each of these places.
fn put_registers(
    form: Form,
    desk: &Desk<Global>,
    places: &[Place],
    out: &mut Text,
) -> Result<(), AllocError> {
    for place in places {
        put_place_facts(form, desk, *place, out)?;
    }
    Ok(())
}

/// Appends that this number is that of something.
fn put_fact(form: Form, of: &[u8], number: u64, is: u64, out: &mut Text) -> Result<(), AllocError> {
    out.put(form.begin())?;
    out.put_word(of, number)?;
    out.put_word(form.colon(), is)?;
    out.put(form.end())
}

/// Appends who has a name, where one has.
fn put_name(
    form: Form,
    number: u64,
    reply: &Reply<View>,
    out: &mut Text,
) -> Result<(), AllocError> {
    match reply {
        Reply::Owner(Some(id)) => put_fact(form, b"name ", number, *id, out),
        _ => Ok(()),
    }
}

/// Appends who has which name, up to this one.
fn put_names(form: Form, desk: &Desk<Global>, most: u64, out: &mut Text) -> Result<(), AllocError> {
    for before in 0..most {
        let number = before + 1;
        put_name(form, number, &desk.owner(number), out)?;
    }
    Ok(())
}

/// Appends what stands in each slot, that of number 1 first.
fn put_slots(form: Form, values: &[u64], out: &mut Text) -> Result<(), AllocError> {
    for before in 0..values.len() {
        put_fact(form, b"slot ", before as u64 + 1, values[before], out)?;
    }
    Ok(())
}

/// Appends how many numbers the pool has.
fn put_size(form: Form, size: u64, out: &mut Text) -> Result<(), AllocError> {
    out.put(form.begin())?;
    out.put(b"size")?;
    out.put_word(form.colon(), size)?;
    out.put(form.end())
}

/// Appends all that a desk holds, on which these have begun and these places were reached. An error where a growth was
/// refused.
pub(crate) fn put_state(
    alloc: Global,
    form: Form,
    desk: &Desk<Global>,
    begun: &[u64],
    reached: &[Place],
    out: &mut Text,
) -> Result<(), AllocError> {
    for id in begun {
        put_person(form, desk, *id, out)?;
    }
    let slots = desk.slots();
    let Ok(competitors) = slots.pool().competitors(alloc) else {
        return Err(AllocError);
    };
    put_strangers(form, desk, &competitors, out)?;
    put_registers(form, desk, reached, out)?;
    put_names(form, desk, MOST_NAMES, out)?;
    put_slots(form, slots.values(), out)?;
    put_size(form, slots.pool().size(), out)
}

/// Appends all that a desk holds, as data, where that is asked for. An error where a growth was refused.
pub(crate) fn put_state_where_asked(
    alloc: Global,
    is_asked: bool,
    desk: &Desk<Global>,
    begun: &[u64],
    reached: &[Place],
    out: &mut Text,
) -> Result<(), AllocError> {
    if is_asked {
        put_state(alloc, Form::Data, desk, begun, reached, out)?;
    }
    Ok(())
}
