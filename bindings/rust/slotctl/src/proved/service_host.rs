// Erased by bindings/rust/erase from crates/service_host/src/lib.rt, sha256 8f35f3eae077e7fc0b6c5f6bd38a8b3cc367241d5c503fb75438f0534d822280.
//! A hall that an operator hosts: clients of a socket in one thread, and a journal of what was accepted.
//!
//! `host_hall` opens the journal, where one is named, and has `service_loop` serve clients over the hall of its record. `Recorded` keeps what
//! a write-ahead hall tells of each turn in its journal before a reply of that turn is sent; `Unrecorded` serves a hall whose history ends with
//! the program. `Reading` has the rules of either (`Rules`): whether the history stores reads, and what clients may ask for. Where a log in etcd is named (`LogPlan`), the hall is served over
//! that (`service_follow`), and other servers share it. `AuditFile` is the file to which the lines of an audit are appended, where one is named.
//!
//! Where a file lists pools (`pools_of`), each is hosted so, in one thread (`host_pools` of `service_loop`).
//!
//! The theorem (`law_of_hosting`): after a turn of the loop over a write-ahead hall and its journal all turns of all connections were answered
//! as is due in one order. The history has gained just their accepted events, plain reads and what is barred aside; header and journal are its record and are
//! synced; each connection was sent the replies to its own lines, and what a crash leaves then has each event that was stored and answered.
//!
//! Not promised, and shown by running it: that a file of the system is such a disk, what sockets carry, how soon a client is served.
//!
//! From `slotctl/src/main.rt`:
//!
//! ```text
//! HostPlan {
//!     config: hosting.config,
//!     listen: listen_plan_of(hosting.endpoints),
//! ..
//! host_hall(rt, alloc, host_plan_of(hosting, seen), output, errors)
//! ```

pub mod audit_file;
pub mod export;
pub mod failure;
pub mod holders;
pub mod keepers;
pub mod log_plan;
pub mod persisters;
pub mod pool_file;
mod pools;
pub mod reading;
pub mod sizes;
pub mod start;
pub mod terms;
pub mod widening;
