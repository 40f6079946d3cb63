// Erased by bindings/rust/erase from crates/text_records/src/lib.rt, sha256 6ec27174f6db5fa4bfd00f255467ec78108336de91fdb28ad8c619f048123b26.
//! The lines of a record, read and written.
//!
//! A record is lines of JSON: a header, which has the configuration of the run, and then an event with its reply as
//! each line. There are two versions. In version 2 the view by which a name was given is written beside it, as the key
//! `view` of that line alone. In version 1 it is not written, and there are at most 16 participants.
//!
//! `next_line` cuts the bytes of a record into lines. `read_header` and `read_line` read one line each, and
//! `read_reply` the text of a reply, as the definitions of `specs/` say. `read_row` also tells whether the bytes may be
//! copied. `put_header` and `put_line` write lines of version 2 in the compact spelling, into a `Text`. A `Line` does not
//! depend on the version that it was read in.
//!
//! Which lines may follow one another is not asked here: `text_checker` judges that.
//!
//! From `text_checker/src/record.rt`:
//!
//! ```text
//! let Some((head, rows)) = next_line(bytes) else {
//!     return Ok(None);
//! };
//! match read_header(alloc, head)? {
//!     Some(header) => Ok(Some((header, rows))),
//!     None => Ok(None),
//! }
//! ..
//! let Some(row) = read_row(alloc, header.config.world, header.version, bytes)? else {
//!     return Ok(Err(Verdict::BadRecord(number)));
//! };
//! ```

pub mod compact;
pub mod header;
pub mod laws;
pub mod line;
pub mod object;
pub mod pairs;
pub mod plain_line;
mod quick_reply;
pub mod record_line;
pub mod reply_text;
pub mod reported;
pub mod rows;
pub mod seals;
pub mod text;
