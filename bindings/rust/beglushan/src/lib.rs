#![doc = include_str!("../README.md")]
#![cfg_attr(not(feature = "std"), no_std)]
#![deny(missing_docs, missing_debug_implementations, unsafe_code)]
#![deny(clippy::undocumented_unsafe_blocks)]

extern crate alloc as std_alloc;

#[cfg(feature = "async")]
mod acquire_async;
#[cfg(feature = "std")]
mod attached;
mod error;
#[cfg(feature = "std")]
mod hint;
mod key;
mod kit;
mod line;
mod lock;
#[cfg(target_has_atomic = "64")]
mod names;
mod numbers;
mod padded;
#[cfg(feature = "std")]
mod per_thread;
#[cfg(feature = "std")]
mod per_thread_iter;
mod places;
mod pool;
#[cfg_attr(not(target_has_atomic = "64"), allow(dead_code))] // `Names` is not there
mod proved;
mod shared_slots;
mod slot;
mod slots;
#[cfg(feature = "std")]
mod thread;
#[cfg(feature = "std")]
mod values;
#[cfg(feature = "std")]
mod waiting;
mod workers;

#[cfg(feature = "async")]
pub use acquire_async::{Acquire, AcquireOwned};
pub use error::Error;
#[cfg(target_has_atomic = "64")]
pub use names::{Names, Seat, MAX_SEATS};
pub use numbers::{Holder, Numbers};
#[cfg(feature = "std")]
pub use per_thread::PerThread;
#[cfg(feature = "std")]
pub use per_thread_iter::{Iter, IterMut};
pub use places::{PlaceSeat, Places, MAX_PLACE_SEATS};
pub use pool::{Lent, Pool, MAX_NUMBERS};
pub use shared_slots::{SharedIter, SharedSlots};
pub use slot::{OwnedSlot, Slot, SlotOf};
pub use slots::Slots;
pub use workers::{LentWorkers, OwnedWorker, Stay, Worker, WorkerOf, Workers};
