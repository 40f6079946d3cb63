// Erased by bindings/rust/erase from crates/text_player/src/lib.rt, sha256 d44ffc95ea90ef00e327d0870f53e544b015c38f292cb0095f9fbc44734c5839.
//! One side of a transcript in the command language (`text_lines`): it takes lines of text, and returns replies,
//! over any service.
//!
//! A `Service` answers events, and questions for the owner of a name, as its relation `may` allows. A *turn* is a line
//! with its answer. A *transcript* is the list of turns of one side.
//!
//! `Responder` is one side of a transcript. It takes lines, has a service answer them, and appends the replies to a
//! buffer that its caller lends. So many of them can share one service (`law_of_sharing`). `Player` is a responder with
//! its replies. It takes bytes, however they are cut, and writes the answers (`AdvancesWriting`). A type parameter says
//! how a turn is written (`Form`): as a reply (`AsReplies`), or in a record as a line of JSON (`AsRecord`).
//!
//! `play_on` plays a whole input. It reads commands, a line each, has a service answer them, and writes the replies, a
//! line each. Its theorem is `IsPlayed`:
//!
//! - There are turns to the lines of the input, in order. By them the service went from its old state to its new one.
//! - The writer has gained the text of their answers, however the bytes were cut. The summary counts them.
//! - `quit` ends the reading. If the call succeeds, no read and no write failed.
//! - A read fault, a write fault and an allocation failure each leave a state that the theorem states.
//!
//! `record_on` plays as well, and writes the record of the run in place of the replies: a header, and each event with
//! its reply (`record_of`). It has the same theorem with that text (`IsRecordedOn`).
//!
//! From `text_player/src/playing.rt`, of a service that is there:
//!
//! ```text
//! player.feed(rt, world, &chunk[..count], writer)?;
//! if player.is_over() {
//!     return Ok(player.summary());
//! }
//! ```
//!
//! From `text_worlds/src/playing.rt`, which plays an input:
//!
//! ```text
//! let mut world = opened::<D, H, A>(&alloc, config)?;
//! play_on(alloc, rt, &mut world, config.world, reader, writer)
//! ```

pub mod as_record;
pub mod as_replies;
pub mod form;
pub mod player;
pub mod playing;
pub mod recording;
pub mod responder;
pub mod service;
pub mod source;
pub mod summary;
pub mod tried;
