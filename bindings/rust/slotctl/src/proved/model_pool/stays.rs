// Erased by bindings/rust/erase from crates/model_pool/src/stays.rt, sha256 bd2e16f8b28793fe889322003d57b0fa1a83ba8376ddb3eb6ee505add60c36b3.
//! Who keeps each stay in a pool, and which stays are to end.
//!
//! A *stay* is the time from the `enter` of an identity to its `leave`. A *keeper* is a connection, or a front end of a
//! log: it has a number that no other keeper ever has. A keeper keeps the stay of an identity once it said `enter` of
//! it, and this was accepted or refused since the identity competes. A stay whose keeper has ended is *due* once more
//! than a grace time of ticks has passed, or at once if the keeper said `quit`.
//!
//! `Stays` is the table. `law_of_grace` says of each stay that is due: a keeper kept it, which has ended more than the
//! grace time ago, and no keeper has kept it since.
//!
//! From `service_loop/src/attended.rt`:
//!
//! ```text
//! if ending.by_quit {
//!     self.stays.quit(ending.number);
//! } else {
//!     self.stays.ended(ending.number, tick);
//! }
//! ..
//! if self.keeps {
//!     self.stays.left(identity);
//! }
//! ..
//! if self.stays.entered(identity, self.speaker).is_err() {
//! ```
pub mod keeper;
pub mod kept_stay;
pub mod stays;
