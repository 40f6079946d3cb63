// Erased by bindings/rust/erase from crates/service_host/src/export.rt, sha256 a50221cc20abb9bd150b793252259514bcc73ca00fa2bbdc163f6e0b4e42c5b5.
//! The history of a hall as commands.

use crate::kit::alloc::Global;
use crate::kit::io::Write;
use crate::proved::model_asked::exchange::Exchange;
use crate::proved::service_hall::hall::Hall;
use crate::proved::service_host::failure::HostFailure;
use crate::proved::text_lines::events::print_event;
use crate::proved::text_lines::replies::Replies;

// Writes the line that asks for an event.
fn write_line<W: Write>(
    exchange: Exchange,
    line: &mut Replies<Global>,
    output: &mut W,
) -> Result<(), HostFailure> {
    print_event(exchange.event, line);
    line.put(b"\n");
    let written = output.write_all(line.as_slice());
    line.clear();
    match written {
        Ok(()) => Ok(()),
        Err(_) => Err(HostFailure::Output),
    }
}

/// Writes the accepted events of a hall as the lines of commands that ask for them, in order.
///
/// # Errors
///
/// - `Memory`: an allocation failed. Nothing is written.
/// - `Output`: the writer failed. A part of the lines may be written.
pub fn write_events<W: Write>(
    alloc: Global,
    hall: &Hall,
    output: &mut W,
) -> Result<(), HostFailure> {
    let mut line = Replies::new(alloc)?;
    for place in 0..hall.len() {
        if let Some(exchange) = hall.get(place) {
            write_line(exchange, &mut line, output)?;
        }
    }
    Ok(())
}
