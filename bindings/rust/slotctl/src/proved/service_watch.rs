// Erased by bindings/rust/erase from crates/service_watch/src/lib.rt, sha256 9a0a5b457e525fe24c2e8adc48580653eb61fe08abb8ea8b8a59a0c88dff491e.
//! What a server shows those who watch it: a page of metrics in the text form of Prometheus, version 0.0.4, over HTTP/1.1.
//!
//! `put_page` writes the page of `Numbers`, `asked_by` says what a request asks for, and `put_answer` writes what is answered. `Scrapers` are those
//! who ask, at most 32 at once: none of their calls waits, each asks once, and each is closed after its answer or three seconds.
//!
//! Promised is the text of the page (`put_page`), which has each number under its name, and the text of each answer (`put_answer`). What a request
//! asks for, the page of several pools (`put_pages`), and what sockets carry, is only tested.
//!
//! From `service_loop/src/watching.rt`:
//!
//! ```text
//! Numbers {
//!     clients: loops.clients,
//!     accepted: loops.accepted,
//!     ..
//!     tally: *tally,
//!     log_age: age_of(tally.log_place, loops.ticks, placed),
//! }
//! ```

pub mod answer;
pub mod durations;
pub mod listeners;
pub mod numbers;
pub mod page;
pub mod pool_pages;
pub mod request;
pub mod scraper;
pub mod scrapers;
