// Erased by bindings/rust/erase from crates/tool_work/src/page.rt, sha256 100652d2820789080fc3026cb4bc9297ee470489e6ecb3eb298b202598bee775.
//! A run that can be looked at: the page of a record.
//!
//! `show` reads a record as `text_checker` does. Where it is one of a run it writes one page of HTML, which needs nothing else: a fixed
//! head, the data of the record, the last state and the events as lists for readers without a script, and a fixed tail with the script that
//! draws the data. What is proved (`IsShown`): the page is the head, then what `page_data` says, then what `state_after` and `items` say,
//! then the tail, with two fixed texts between; of any verdict but `Yes` nothing is written; at a write fault what was written is a
//! beginning of the page. What it has of the record has no `<` (`law_of_data`).
//!
//! The lines are replayed on a desk of the record's config. The data have all that this desk holds before the first event of a stretch
//! (`state`), and a row for each event of it: the event, the reply of the record, the reply of the desk, the access that was made, and
//! then, as the desk says after the event, what stands in the register that was reached, where whose event it is stands, and the size of
//! the pool. So the script adds nothing of its own, and a page of a thousand events stays small. Another object than a desk may answer
//! otherwise and be right: then a row has two replies that differ, and the page says so. A line that tells a refusal changes nothing.
//!
//! From `tool_work/src/showing.rt`:
//!
//! ```text
//! Stretch {
//!     from: showing.from,
//!     count: showing.count,
//! }
//! ..
//! let verdict = show(alloc, bytes.as_slice(), stretch_asked(showing), writer)?;
//! ```
mod access;
pub mod done;
pub mod form;
pub mod head;
pub mod middle;
mod row;
mod sheet;
pub mod showing;
pub mod standing;
pub mod state;
mod still;
pub mod stretch;
pub mod tail;
