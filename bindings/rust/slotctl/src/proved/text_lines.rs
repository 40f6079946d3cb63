// Erased by bindings/rust/erase from crates/text_lines/src/lib.rt, sha256 774eac8acdf0e7e50ef0dabc54ca361e914f27bfa9e398124f17ae4052af552d.
//! The command language: lines of text to commands, replies and events to text, and the buffer of bytes to be written.
//!
//! The meaning of a line is `meaning`, which `parse_line` returns. `quick_command` and `quick_number` return the same
//! of the commonest commands and of numbers, in one pass, up to any byte that ends them. `words` cuts bytes at a
//! separator, and reads the numbers that words write. `after_front` returns the bytes after a prefix. A line that is
//! given byte by byte is kept in a `LineBuffer`. How a text is cut into its lines is `law_of_lines`.
//!
//! The text of a reply is `reply_text`, which `print_reply` writes. The line that asks for an event is `event_words`
//! (`print_event`). They are written to `Replies`, a buffer that is allocated once and sends its bytes to a writer
//! whose calls are counted (`Sink`). A `Fault` is why a run ended early.
//!
//! Nothing here knows who answers: that is the crate `text_player`.
//!
//! From `tests_tool/src/parse_tests.rt`:
//!
//! ```text
//! (b"step 07", Err(Bad::BadNumber)),
//! ..
//! (b"step 9", Ok(Command::Event(Event::Step(9)))),
//! ..
//! if parse_line(line, world) != want {
//! ```
//!
//! From `tests_tool/src/print_tests.rt`:
//!
//! ```text
//! (Reply::Got(64), b"got 64\n"),
//! ..
//! out.clear();
//! print_reply(reply, view, out);
//! out.as_slice() == want
//! ```

pub mod events;
pub mod fault;
pub mod front;
pub mod held;
pub mod laws;
pub mod line_buffer;
pub mod parse;
pub mod print;
pub mod quick;
pub mod replies;
pub mod sink;
pub mod words;
