// Erased by bindings/rust/erase from crates/service_loop/src/lib.rt, sha256 b2ecc95271283adc197354e6d8439afd798ae4f26387b8ff495ce588ca207402.
//! Connections that share one service, in one thread.
//!
//! `Buffers` are a connection without its stream: one side of a transcript (`Responder`), what came and is not taken yet, and what was said and is not
//! sent yet, at most 64 KiB of each. A `Connection` is such buffers with their `Stream`, which does not wait. `iterate` is one iteration of the loop:
//! connections that are due take what came (`take_turns`), what the service tells of it is kept (`Persist`), and only then are replies sent
//! (`send_replies`). Its theorem (`LoopIteration`): there is one order of all turns of all connections (`TurnLog`) in which they are a run of
//! the service; the turns of each connection are those to the lines that it sent, in order, however the bytes were cut, and it waits for
//! the replies to them and to no others; of each at most 64 KiB were read; and of what waits for it a prefix is sent. Where what was
//! reported cannot be kept, nothing is sent at all.
//!
//! Where a service cannot answer a line as it comes, but prefetches answers many at once (`Persist::most_prefetched`), `iterate_prefetched` first has connections
//! read, and looks at the lines that they will take (`Peek`): their requests go to the persister in one batch, and then the turn is as
//! ever. Its theorem (`PrefetchedIteration`): before the turn nothing was taken, said or sent, and the answers to the batch were prefetched; the batch is
//! just the requests among what was looked at, and each connection takes a prefix of what was looked at of it, and nothing else; where
//! the answers were not prefetched in time, nothing is sent to any, and whoever has a line in the batch is at fault (`NotPrefetched`). That nothing
//! of what was looked at is left over is not promised but shown by running it (`tests_log`).
//!
//! `law_of_sharing` in `text_player` makes such turns, one after another, one log.
//!
//! A service is `Attended`: it notes which connection keeps each stay in the pool, by the numbers that connections have (`Hears`). `end_due` ends the stays
//! that are due, and no others.
//!
//! After an iteration a line `take ID` that waits first takes a number (`serve_takings`): the server says `enter ID`, and then in the wide world one
//! `seek ID`, elsewhere `probe ID` as often as it takes, and answers the last reply. Where tokens are given, it says `put ID 0` behind a number, and the
//! answer tells the token too (`take_with_token`). This is kept before it is answered, like all else. Where answers are prefetched, the lines of that are
//! a batch of their own (`prefetch_takings`).
//!
//! `host` is a whole server over sockets: it waits until some are ready (`mio`), gives those their turn, and closes who is at an end or idle. Its theorem
//! (`WasAttended`): from its start to its end nothing else was done than such turns, each said of the numbers of its connections; what was heard
//! of connections that ended, at a tick; and what was done to end the stays that are due then (`law_of_hosted_grace`).
//!
//! Where clients own their identities, the lines of each socket go through `OwnerLines`: an identity and the secret behind it become the identity that both
//! give (`put_owned`, `law_of_owner_lines`). The rest of the loop knows nothing of that.
//!
//! `host_pools` is a server of several pools (`HostedPool`): a client chooses one by its first line (`Porch`). Its theorem (`PoolsWereAttended`): nothing else
//! was done to each pool than `host` does.
//!
//! What was taken, given back and refused is counted, and told of in lines where a log of them is wanted (`Audit`, `AuditLog`).
//!
//! Not promised, and shown by running it: what an audit tells, that a connection that is due has its turn soon, and what sockets carry.
//!
//! From `tests_log/src/turn_tests.rt`:
//!
//! ```text
//! match iterate_prefetched(
//!     &(),
//!     &mut attended,
//!     teller,
//!     &mut batch,
//!     &mut room,
//!     seats,
//!     &[],
//!     &ready,
//! )? {
//!     Called::Served(called) | Called::Unserved(called) => {
//! ```

pub mod answering;
mod asking;
pub mod attended;
pub mod audit;
mod audit_lines;
pub mod audit_log;
pub mod buffers;
pub mod change;
pub mod connection;
pub mod connections;
pub mod doors;
pub mod failing;
pub mod feed;
pub mod first_point;
pub mod gathering;
pub mod host_fault;
pub mod hosting;
mod losing;
pub mod manner;
mod newcomer;
pub mod owner_line;
pub mod owner_lines;
pub mod peek;
pub mod persist;
pub mod pool_line;
pub mod pools;
mod porch;
pub mod releasing;
mod searching;
pub mod seat_numbers;
pub mod shared;
pub mod socket;
pub mod stream;
mod take_line;
pub mod take_queue;
pub mod taking;
pub mod teller;
pub mod terms;
pub mod turns;
pub mod watch_line;
pub mod watchers;
pub mod watching;
