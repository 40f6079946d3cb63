// Erased by bindings/rust/erase from crates/model_asked/src/lib.rt, sha256 ab94a872e74c53faaec4513c939b561afb2d649616cad1a3ba54fa72f5f874bf.
//! What is asked and answered: the vocabulary of all that is played.
//!
//! An *event* is an action of one participant, or the growth of the pool. A *command* is what a line asks for: an
//! event, the identity that has a name, or the end. A *reply* is what is returned, a refusal among them. `Reply<View>`
//! carries the view that it shows. `Reply<()>` takes a few bytes, and its view is kept beside it. An *exchange* is an
//! event with its reply. A line that is no command is bad, for one of five reasons (`Bad`). A `Config` fixes a run: one
//! of the worlds (`WorldKind`), and its sizes.
//!
//! Nothing here knows how a world answers.
//!
//! From `tests_model/src/renaming_tests.rt`:
//!
//! ```text
//! fn cannot_spend(most: u64, limit: u64) -> Reported {
//!     let config = Config::new(WorldKind::Rename, most, 4, limit)?;
//!     Ok(config.cannot_spend())
//! }
//! ..
//! same(&rt, 9, cannot_spend(10, 1_000_000), Ok(false));
//! ```

pub mod bad;
pub mod command;
pub mod config;
pub mod event;
pub mod exchange;
pub mod kind;
pub mod reply;
