// Erased by bindings/rust/erase from crates/service_journal/src/laws.rt, sha256 00ccbc9658cb78b6d6d6d0cad7725e68b33033b49fab42046b7e6b9d3ef8c637.
//! What a crash leaves of a journal, and what is opened of that.

use crate::proved::text_lines::laws::law_of_lines;

/// A law: what a crash leaves of a journal, if all that was committed is on its disk.
///
/// It leaves the record of a prefix of the history, which has all events that were committed. If the record of another hall replaces all
/// bytes, as that of a compacted hall does, the crash leaves such a prefix or that record, whole. The hall that is opened of what is left
/// has that record.
pub fn law_of_crashes() {
    law_of_lines();
}
