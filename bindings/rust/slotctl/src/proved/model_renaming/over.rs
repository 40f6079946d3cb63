// Erased by bindings/rust/erase from crates/model_renaming/src/over.rt, sha256 14ee4c82a2032462387d575ed12741aa8a6894a98671ce86263df361b4a96a58.
//! Places of a snapshot object: a grid of doors, and a tree that grows, each with a segment at each place.
//!
//! A snapshot object (`model_snapshot`) needs *places* with two properties. Each participant gets a place of its own. A
//! walk over the segments meets each segment that was written before the walk began. Over a *grid* (Moir and Anderson
//! 1995) a participant walks from door to door until it stops. A collect there reads the segments of all doors, by
//! rising place. Over a *tree* of the same doors it walks down from the root. A collect there reads the marks and the
//! segments of marked nodes, so that its length depends on the crowd. (The mark, the order and the counts are
//! this project's own.)
//!
//! The law is that of the snapshot object, over every list of calls. Where `b` have begun:
//!
//! - Over a grid for m participants, with G = m(m + 1)/2 segments, a place is reached within 4b steps. A scan makes at
//!   most G(G + 1) reads. After `new` no step allocates.
//! - Over a tree, a place is reached within 5b steps, and a scan makes at most (b + 1)(6b - 2) reads. Only a step that
//!   makes a node may fail because an allocation failed, and then nothing has changed.
//!
//! Over both, the state of a participant that begins is a function of its identity and of m alone.
//!
//! From `tests_model/src/places_tests.rt`, whose rows are made by `world.begin`, `world.scan`, `world.update` and
//! `world.step`:
//!
//! ```text
//! SnapWorld::new(alloc, Grid::new(alloc, 2)?)
//! ..
//! (10, Call::Begin, Reported::Done),
//! (20, Call::Begin, Reported::Done),
//! (10, Call::Steps(5), Reported::Placed(1)),
//! (10, Call::Scan, Reported::Done),
//! (10, Call::Steps(4), Reported::Quiet),
//! (20, Call::Steps(8), Reported::Placed(3)),
//! (20, Call::Update(5), Reported::Done),
//! (20, Call::Steps(15), Reported::Written),
//! (10, Call::Steps(14), Reported::Shown(&[(20, 5)])),
//! ..
//! SnapWorld::new(alloc, TreePlaces::new(alloc, 2)?)
//! ```
pub mod grid;
pub mod grid_register;
pub mod grid_walk;
pub mod grid_walker;
pub mod tree;
pub mod tree_walk;
pub mod tree_walker;
