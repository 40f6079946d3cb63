// Erased by bindings/rust/erase from crates/service_follow/src/lib.rt, sha256 6dd950084d55d842e5b538f1a19ceaeda19c0257391bd56e52a958d3a89d89c6.
//! A hall whose history is a log that several machines share.
//!
//! `HallMachine` is a hall as the machine of a `service_log::Replica`: an entry of the log is a first line, a token of its own, and then lines
//! of commands, which are played over the hall in order (`HallApplies`). What the hall says is put on a `ReplyQueue`, which as a service says it
//! again, to whoever asks for the same in the same order (`ReplyQueueReplies`).
//!
//! `LogPersister` serves the clients of one front end: before a turn of the loop (`service_loop`) takes the lines that came, they come to stand
//! in the log as one entry (`prefetch`), and the answers are those due at its place. The turn takes them from the queue of replies, and sends nothing
//! unless all of the queue of replies was said again (`persister`). The first entry of a log is a line of its config and of its terms (`HallTerms`): a
//! front end with others refuses to start.
//!
//! The theorem (`law_of_log_hosting`): a turn of the loop over a queue of replies that was prefetched and used up is a turn over the hall of the log: all
//! turns of all connections, in one order, are a run of the hall to which just the entries before this turn's were applied. Halls of one
//! config that have applied one log up to one place are the same (`law_of_halls`).
//!
//! An entry tells whether the hall stores its reads: those of an entry with ` plain` in its first line are answered, and are no events. Where a front end
//! stores none, lines that ask for reads alone are no entry: they are answered once the log was read to its end (`law_of_reads`).
//!
//! `StayMachine` has with the hall who keeps each stay in its pool, as the log tells: the front end whose entry said `enter` of it last and was
//! answered `ok` or `refused 9` (`law_of_keepers`). `LogPersister::end_stays` ends the stays of this front end that nobody keeps any more, and those of
//! front ends of which nothing was heard for long. A release is offered for one place, that up to which the log was read, and for no other.
//!
//! A long history is compacted by entries of the log itself, which a front end offers. A replica that read them whole has a shorter history with the
//! same desk, renaming and stays, and answers as one that passed over them (`law_of_compactions`). A front end may start at such entries, and is then as
//! one that read all (`law_of_starts`).
//!
//! Where memory is refused while an entry is applied nothing is known of the hall any more, and nothing is answered (`LogFault::Memory`).
//!
//! Not promised, and shown by running it: that a store over a network is one log, how soon it answers, and that the token is no other's.
//!
//! From `tests_log/src/persister_tests.rt`:
//!
//! ```text
//! LogPersister::open(alloc, lossy, tries, config, [b'a'; 32], TERMS)
//! ..
//! if persister.prefetch(&mut reply_queue, lines)? == Prefetch::Lost {
//!     return Ok(None);
//! }
//! ..
//! persister.persist(&mut reply_queue)?;
//! ```

mod compaction;
pub mod front_end_stay;
mod gathering;
mod gone_stays;
pub mod hall_terms;
mod keeping;
mod lasting;
pub mod log_fault;
pub mod log_hall;
pub mod log_persister;
pub mod machine;
pub mod marks;
pub mod note;
mod noting;
pub mod pause;
mod reading;
mod release_lines;
pub mod reply_queue;
mod retelling;
mod sessions;
pub mod stay_machine;
pub mod tallying;
pub mod watches;
