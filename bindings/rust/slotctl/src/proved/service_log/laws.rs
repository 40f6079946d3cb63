// Erased by bindings/rust/erase from crates/service_log/src/laws.rt, sha256 0a7fcfa261c9b74c04e7d114176c40b3571bf9c840d4dc5338d9a13bab1408a3.
//! Laws of replicas, which run nothing.

use crate::proved::service_log::machine::Machine;
use crate::proved::service_log::store::Store;

/// A law of a replica over a store, before and after a call that keeps all entries of the log.
///
/// - `still`: a replica that the log led from a place on is still one that the log led from there.
/// - `due`: its replies are those due at the place of the batch, after all entries before it from that place on.
pub fn law_of_following<M: Machine, S: Store>() {}
