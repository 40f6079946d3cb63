// Erased by bindings/rust/erase from crates/tool_work/src/drawn.rt, sha256 480d2a7f4687f97fb24c304fbf0b760127383a85d0b02b81232bfed326e021eb.
//! Schedules that are drawn by the words of a generator, and what becomes of their participants.
//!
//! In a drawn schedule (`Schedule`) the identities from 1 begin, and then a number of steps are taken. Each step is
//! that of the identity which the next word of the generator `Lcg64Xsh32` gives. `draw_schedule` writes the schedule's
//! lines. `play_schedules` plays the schedules of consecutive seeds, each on a fresh desk, and writes a line for each
//! run: how many have begun, were named and were spent. `draw` and `play_drawn` are the same by plain numbers.
//! `play_drawn_by` shares the runs among threads, with the contract of `play_schedules`. Not proved: how many threads
//! there are, and that they run at the same time.
//!
//! What is proved: `draw_schedule` writes exactly the text of the generator's words (`ok`; `part` at a fault). Each
//! line of `play_schedules` has the three numbers of a run of its schedule (`HasDrawnInto`). That is the run
//! of the configuration's desk if no allocation fails. The memory of a run is in an arena that is reset before the
//! next.
//!
//! From `tests_tool/src/writes_tests.rt`:
//!
//! ```text
//! Work::Draw(Some(config)) if config.world.gives_names() => {
//!     play_drawn(alloc, 7, 4, 200, 3, config, writer)?
//! }
//! Work::Draw(_) => draw(alloc, 7, 4, 200, writer)?,
//! ```
pub mod jobs;
pub mod runs;
pub mod schedule;
pub mod tally;
