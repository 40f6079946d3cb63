// Erased by bindings/rust/erase from crates/model_snapshot/src/lib.rt, sha256 e280143bcd6dc080f177e8f0fc62244f80940615d157e5c1fc942f63e1dc5583.
//! A snapshot object whose updates help scans, made step by step over places that participants get.
//!
//! It is the unbounded single-writer snapshot of Afek et al. 1993 (Atomic snapshots of shared memory).
//!
//! Each participant has a place, and at it a *segment* that it alone writes. An *update* is a scan and then one write.
//! It writes the value with a sequence number and the view of that scan. A *scan* collects the segments, one read a
//! step. It ends in one of two ways:
//!
//! - A collect shows no change since the one before. Its values are the view.
//! - A segment changes for the second time in this scan. Its record then has a view that was scanned within this scan,
//!   and the scan returns that view.
//!
//! The *places* (`Places`) say which registers a collect reads, and in which order. The next register may depend on
//! what was read.
//!
//! What is proved, over every list of calls with their replies and over each of its prefixes:
//!
//! - *Moments* are the maps from identity to value: the empty one first, and a new one for each write. A view that a
//!   scan returns is a moment. It is the last one at the scan's first read, or a later one, but none after its last
//!   read.
//! - A view has no more pairs than participants have begun.
//! - Let b have begun, and a walk over the segments make at most r reads. A scan takes at most (b + 1)r steps, each a
//!   read, whatever the others do. An update takes one step more, its write.
//! - A call returns an error if and only if that error is due. A step on the way to a place may also fail because an
//!   allocation failed.
//! - A step makes one access, which the participant's own state names.
//!
//! (The count of steps, the first sequence number 1 and the limit of updates are this project's own.)
//!
//! `Client` is a participant, as a program that makes one access a step. `SnapWorld` is the object: a world
//! (`model_steps`) of such participants over any places. Each call of it extends its history, and a read of a scan
//! copies no segment. `law_of_snapshot_calls`, `law_of_clients` and `law_of_steps_alone` state what the crates above
//! use.
//!
//! `specs/Places.antt` states what places promise, and each implementor of `Places` proves it. Contracts name what
//! ways, walks and memory do by one record, `⟦<W as Known>⟧.places`. `Fixed` has segments in a row, and gives the
//! `j`-th participant that begins the `j`-th segment at once. Over it `snapshot_law` gives the bounds as numbers. The
//! crate `model_renaming::over` has a grid and a tree.
//!
//! From `tests_model/src/snapshot_tests.rt`, over segments in a row:
//!
//! ```text
//! Call::Begin => is_asked(world.begin(id), reported),
//! Call::Update(value) => is_asked(world.update(id, value), reported),
//! Call::Scan => is_asked(world.scan(id), reported),
//! ..
//! (10, Call::Begin, Reported::Done),
//! (20, Call::Begin, Reported::Done),
//! (10, Call::Update(5), Reported::Done),
//! (10, Call::Steps(5), Reported::Written),
//! (20, Call::Scan, Reported::Done),
//! (20, Call::Steps(4), Reported::Shown(&[(10, 5)])),
//! ..
//! SnapWorld::new(alloc, Fixed::new(alloc, most)?)
//! ```

pub mod client;
pub mod places;
pub mod scan;
pub mod sightings;
pub mod walk;
pub mod world;
