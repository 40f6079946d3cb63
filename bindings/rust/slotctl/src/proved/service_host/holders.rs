// Erased by bindings/rust/erase from crates/service_host/src/holders.rt, sha256 19e439cb387130f8fdf80cfe660473d100715e001cccceb3ccb9a6f8f21bc81f.
//! Who holds numbers by the record of a hall.

use crate::kit::alloc::Global;
use crate::kit::io::{Read, Write};
use crate::kit::Vec;
use crate::proved::model_asked::config::Config;
use crate::proved::model_pool::slots::slots::Slots;
use crate::proved::service_hall::hall::Hall;
use crate::proved::service_host::failure::HostFailure;
use crate::proved::service_journal::opening::recovered;
use crate::proved::text_lines::replies::Replies;
use crate::proved::text_player::as_record::print_header;
use crate::proved::text_records::record_line::read_header;
use crate::proved::text_records::seals::{put_lines, LineForm};
use crate::proved::text_records::text::Text;

/// What ends a line.
const LF: u8 = 10;

// All that a reader gives.
fn read_all<R: Read>(alloc: Global, input: &mut R) -> Result<Vec<u8>, HostFailure> {
    let mut bytes = Vec::new(alloc);
    match input.read_to_end(&mut bytes) {
        Ok(_) => Ok(bytes),
        Err(_) => Err(HostFailure::Input),
    }
}

/// Returns the config that the first line of a record says.
///
/// # Errors
///
/// - `BadRecord`: it is no first line of a record.
/// - `Memory`: an allocation failed.
pub(crate) fn config_of(alloc: Global, bytes: &[u8]) -> Result<Config, HostFailure> {
    let end = bytes.iter().position(|byte| *byte == LF).unwrap_or(0);
    match read_header(alloc, &bytes[..end.min(bytes.len())]) {
        Ok(Some(header)) => Ok(header.config),
        Ok(None) => Err(HostFailure::BadRecord(1)),
        Err(_) => Err(HostFailure::Memory),
    }
}

// The lines of a record, each without its checksum, and what follows the last of them.
fn plain_text(alloc: Global, bytes: &[u8]) -> Result<Text, HostFailure> {
    let mut text = Text::new(alloc);
    let rest = put_lines(LineForm::Plain, bytes, &mut text)?;
    text.put(rest)?;
    Ok(text)
}

// The hall whose record these bytes are, once a torn last line is cut.
fn recorded_hall(alloc: Global, bytes: &[u8]) -> Result<Hall, HostFailure> {
    let text = plain_text(alloc, bytes)?;
    let bytes = text.as_slice();
    let config = config_of(alloc, bytes)?;
    let mut header = Replies::new(alloc)?;
    print_header(config, &mut header);
    match recovered(alloc, config, header.as_slice(), bytes) {
        Ok((hall, _)) => Ok(hall),
        Err(fault) => Err(HostFailure::from(fault)),
    }
}

// Writes the lines of so many numbers behind this one that are held.
fn write_page<W: Write>(
    slots: &Slots<u64, Global>,
    before: u32,
    count: u32,
    text: &mut Replies<Global>,
    output: &mut W,
) -> Result<(), HostFailure> {
    crate::proved::text_lines::held::telling::put_lines(slots, before, count, text);
    let written = output.write_all(text.as_slice());
    text.clear();
    match written {
        Ok(()) => Ok(()),
        Err(_) => Err(HostFailure::Output),
    }
}

// Writes who holds numbers in a hall.
fn write_held<W: Write>(alloc: Global, hall: &Hall, output: &mut W) -> Result<(), HostFailure> {
    let slots = hall.slots();
    let size = slots.pool().size() as u32;
    let mut text = Replies::new(alloc)?;
    let mut told = 0;
    while told < size {
        let count = (size - told).min(64);
        write_page(slots, told, count, &mut text, output)?;
        told += count;
    }
    match output.write_all(b"ok\n") {
        Ok(()) => Ok(()),
        Err(_) => Err(HostFailure::Output),
    }
}

/// Writes who holds numbers in the hall whose record a reader gives, as `held` is answered of that hall, all in one page: a last line that was cut off is dropped,
/// as at the opening of a journal.
///
/// # Errors
///
/// Nothing was written where it is another than `HostFailure::Output`: `Input` where the reader failed, `BadRecord`, `No` and the others of
/// an opening (`OpenFault`) where what it gave is no record that a server writes, `Memory` where a growth was refused.
pub fn write_holders<R: Read, W: Write>(
    alloc: Global,
    input: &mut R,
    output: &mut W,
) -> Result<(), HostFailure> {
    let bytes = read_all(alloc, input)?;
    let hall = recorded_hall(alloc, &bytes)?;
    write_held(alloc, &hall, output)
}
