// Erased by bindings/rust/erase from crates/service_log/src/etcd.rt, sha256 cdd2975bba82dea6e23a6f97d65ba06bd0a94e08f6d245babe19bda879a07ae8.
//! A store over etcd: places that are written once, by the JSON gateway that each member of etcd has.
//!
//! The key of a place is its prefix and 16 digits. A put is a transaction that puts a value if its key was never
//! created, and nothing says that the place was given up. A get asks for a range of keys, and the store keeps those after the first for its next calls. `put_text`
//! and `get_text` return the texts of the requests (`specs/Requests`). `read_put` and `read_get` read the texts of the
//! answers (`specs/Answers`). Keys and values are in base64, and etcd leaves out what is false or empty.
//!
//! The place that was written or read last must still hold its entry. The transaction of the next put asks for that too
//! (`put_behind_text`), and the next range begins there. If it does not, etcd was put back to an older state. The put
//! then writes nothing, and the get returns `StoreFault::WentBack`.
//!
//! `EtcdStore` asks its members in turn, over any `Dial`. `TcpDial` makes streams over TCP, with a time limit for each
//! read and write. After a fault the store drops the connection and asks the next member the same, each member at most
//! twice. A put whose answer was lost then finds the place taken, by its own entry.
//!
//! An append puts a value at the first of four keys that was never created, by one transaction in another, and gets what is
//! there (`append_text`, `read_append`). It compares at which revision one key was changed last, the fence. After a fault
//! the store changes the fence (`fence_text`) before it offers anything, so no append of before is written later.
//!
//! A trim notes the place below which entries are given up, and deletes them by one transaction after another
//! (`trim_text`). The first of them writes the note.
//!
//! Not proved, but trusted, since no contract can say what sockets carry: etcd holds what it answered, and never loses
//! a key that it created. So nothing but a trim may delete a key under a prefix, and each log has its own prefix.
//!
//! From `tests_log/src/etcd_tests.rt`, over texts in place of members:
//!
//! ```text
//! Ok(EtcdStore::new(alloc, Script { texts, dialed: 0 }, prefix))
//! ..
//! let put = [etcd.put(42, b"hi"), etcd.put(42, b"ho")];
//! ..
//! put == [Ok(Put::Written), Ok(Put::Taken)]
//! ```
pub mod answer;
pub mod dial;
pub mod etcd_store;
pub mod exchange;
pub mod key;
pub mod request;
