// Erased by bindings/rust/erase from crates/text_worlds/src/lib.rt, sha256 0bb137d99639c3545653210b758b309033c1718bcffea12009e7c40c57c9b12d.
//! Runs of worlds in the command language, whose lines and replies are `text_player`'s.
//!
//! `play` reads the commands of a reader, one a line, has a world answer them, and writes the replies, one a line. Its
//! theorem (`IsPlayed`) has these parts:
//!
//! - There is a transcript of the configuration: entries for the lines of the input, in order (`IsTranscript`). Its
//!   events with their replies are a run that the world's objects can answer. Each reply to `owner` has the identity
//!   that was given the name.
//! - The writer has gained the text of the replies, however the bytes were cut. The summary counts them.
//! - `quit` ends the reading. The theorem also says what a read fault, a write fault and an allocation failure leave.
//!
//! `record` plays in a world with names and writes the record of the run in place of the replies: a header, and each
//! event with its reply as a line of JSON (`record_of`). It has the same theorem with that text (`IsRecorded`).
//!
//! A world is a service that is opened from a configuration (`World`). `play_in` plays in any world; `play_on` and
//! `record_on` of `text_player`, which all of this calls, play on any service.
//!
//! From `tests_tool/src/playing_tests.rt`:
//!
//! ```text
//! if case.is_kept && case.config.world.gives_names() {
//!     record(heap, reader, writer, case.config).err()
//! } else {
//!     play(heap, reader, writer, case.config).err()
//! }
//! ..
//! let mut reader = Tried::new(FaultyReader::new(case.input, given, bad_read));
//! let mut writer = Tried::new(FaultyWriter::new(alloc, taken, bad_write, takes_nothing));
//! ..
//! (b"begin 7\nquit\nbegin 8", b"ok\nok\n"),
//! ```

pub mod desk;
mod desk_world;
mod grid_world;
mod outcomes;
pub mod playing;
pub mod recording;
mod splitter_world;
pub mod world;
