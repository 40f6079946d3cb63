// Erased by bindings/rust/erase from crates/service_log/src/lib.rt, sha256 ba336dc19ec1623c624f909f3bc5faccebcc0251c9db11a3ef2b226a79e135b5.
//! One log that several machines share, and a replica of a machine that follows it (Schneider 1990).
//!
//! A `Store` has places, each of which is written at most once, by the first caller. Its entries in order are the log.
//! Entries may be given up (`Store::trim`), and their places stay taken for good.
//!
//! A `Replica` applies the entries of the log to its `Machine`, each once, in their order.
//!
//! `Replica::serve` puts a batch into the log, after all entries that are there, and returns the replies that are due
//! there. So each reply is one at one place of one history, whichever replica returned it.
//!
//! No contract can say what a store over a network holds. So `Store::stands` and `Store::lacks` say what the store's
//! own value shows. A `MemoryStore` shows everything, and a store over sockets nothing. The proof of a replica holds
//! for every store.
//!
//! After a fault a replica returns no replies, and the fate of the batch is not known (`ServeFault::Unknown`). A caller
//! may ask the same replica to serve the same bytes again. The replica reads the place before it offers them there once
//! more. It takes an entry of equal bytes for its own. So two batches that are meant as two entries must differ: let
//! each begin with its own token.
//!
//! If a machine does not apply an entry, since an allocation failed or the entry is damaged, nothing is known of the machine. Its replica is
//! poisoned, and never answers again (`Cause::Poisoned`).
//!
//! From `tests_log/src/replica_tests.rt`, over a store that loses the answer to each put:
//!
//! ```text
//! let mut store = Lossy::new(MemoryStore::new(alloc), 1);
//! let mut replies = Vec::new(alloc);
//! let mut one = replica(alloc, 0);
//! let reported = [
//!     one.serve(&mut store, b"1 a", &mut replies),
//!     one.serve(&mut store, b"1 a", &mut replies),
//! ];
//! let lost = ServeFault::Unknown(Cause::Store(StoreFault::Lost));
//! reported == [Err(lost), Ok(())]
//! ```

pub mod etcd;
pub mod laws;
pub mod machine;
pub mod replica;
pub mod serve_fault;
pub mod store;
pub mod store_fault;
