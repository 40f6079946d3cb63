// Erased by bindings/rust/erase from crates/text_checker/src/lib.rt, sha256 913756cf061ad21f5ee479a19e746ac973d9bbc24353eeac994eb8e200e71fe8.
//! Judges whether a record is one of a run, by the objects alone: nothing is played.
//!
//! A record is lines of JSON: a header, which has the configuration of the run, and then an event with its reply as
//! each line. `check` returns a verdict on its bytes. What is proved (`IsVerdict`), if no allocation fails:
//!
//! - `Yes`: the first line is a header, and the others, at most 1,000,000, are events with replies. These are a run of
//!   the renaming object, the pool and the slots, for some choice of the views that are not written. The header's size
//!   of the pool is that at the start: a `widen` with the reply `ok` changes it for the lines after it.
//! - `No` with a line and a reason: the lines before it are read and can follow one another. The line is read and
//!   cannot follow, for this reason of seven and for no lesser one.
//! - `BadRecord` with a line: the lines before it are read and can follow one another. The line is no line of a record.
//!
//! So the first fault decides, of whichever kind. There are two versions of records. In version 2 the view by which a
//! name was given is written beside it, as the key `view` of that line alone. In version 1 it is not written, and there
//! are at most 16 participants.
//!
//! A line can follow if and only if no reason fits (`law_of_reasons`). A list is one of a run if and only if each of
//! its lines can follow (`law_of_followed_lines`, `law_of_records`). What a desk answers is always one
//! (`law_of_desk_runs`). A `Checker` judges one line after another with the state of `text_checker::judges`. `Checker::judge`
//! takes a line if and only if it can follow those taken before it, and otherwise returns the least of seven reasons
//! (`TakesMore`). `first_fault` judges a list of lines that were read. The lines are read by `text_records`, whose
//! `Line`, `Reported`, `Pairs`, `Header`, `Version` and `read_reply` can be named here as well.
//!
//! What `record` of `text_worlds` writes of an input with at most 1,000,000 events is the record of a transcript to
//! its lines. `check` returns `Yes` for it, or `NoMemory` (`law_of_recording`; `law_of_recorded_transcripts` over
//! transcripts alone).
//!
//! `Judge` judges a record whose bytes are given part by part, as `check` judges a whole one (`HasTakenAll`, `IsSaid`).
//!
//! `migrate` writes a record again in version 2, in the compact spelling, if it is one of a run. It adds each view by
//! which a name was given and that is not written. That view is the first moment since the identity's last proposal in
//! which no other proposed the same. What is proved (`IsMigrated`): the lines are those of exchanges that the objects
//! can make, with each such view the first. What is written is their record of version 2, for which only `Yes` is a
//! verdict, or at a write fault a prefix of it. With another verdict nothing is written.
//!
//! `NoMemory` means nothing of the record. Only tested: that a verdict other than `NoMemory` is returned if no
//! allocation fails.
//!
//! From `tests_tool/src/recording_tests.rt`:
//!
//! ```text
//! let mut reader = Tried::new(input);
//! let mut writer = Tried::new(Vec::new(alloc));
//! record(alloc, &mut reader, &mut writer, config)?;
//! let bytes = writer.into_inner();
//! Ok(check(alloc, &bytes))
//! ```
//!
//! From `tests_tool/src/lines_tests.rt`:
//!
//! ```text
//! first_fault(alloc, config, lines).ok()
//! ..
//! let lines = [
//!     begin(10),
//!     begin(20),
//!     step(20, Reported::Proposed(1)),
//!     step(10, Reported::Proposed(1)),
//!     step(10, last),
//! ];
//! ```

pub mod checker;
mod fault;
pub mod gather;
pub mod judge;
pub mod judges;
pub mod migrating;
mod migration;
pub mod reason;
pub mod record;
pub mod row_judge;
pub mod verdict;
