// Erased by bindings/rust/erase from crates/model_renaming/src/lib.rt, sha256 f9ecfaf99d122f07616f82729b9ff66e5846ecee94329e39485e1122ad0320cc.
//! Adaptive renaming: participants with 64-bit identities get distinct names in `1..=2b-1`, where `b` have begun (the
//! problem: Attiya et al. 1990).
//!
//! A participant walks to its place and then makes rounds over a helped snapshot object. In a round it *proposes* a
//! number, 1 at first, by an update of its segment. Then it *looks*, by a scan. If no other identity proposes the same
//! number, the number is its name. Otherwise it proposes the r-th positive number that no other identity proposes in
//! that view, where r is its rank there. If it has made as many proposals as the round limit allows, and sees another
//! identity with the last of them, it is *spent*. Two participants never get one name. Every view is one moment of the
//! memory, and a proposal stays until the next. So the later of the two would have seen the other. (The round limit is
//! this project's own.)
//!
//! What is proved, over every list of calls in any order, with participants that crash anywhere:
//!
//! - The replies are those of the renaming object (`specs/RenameObject.antt`). Its state is who has begun, places,
//!   names, who is spent, and the moments that proposals make. It may give any name that these allow.
//! - No two participants have one name, and each name is from 1 to 2b - 1.
//! - A participant gets its place, then proposals and views in turn, then its name or `Spent`, each within a bound
//!   (`specs/Pace.antt`).
//! - Each error is returned if and only if it is due, and changes nothing.
//! - A step makes one access, which the participant's own state names. Its reply and its new state are functions of
//!   that state and of the answer, and nothing else changes (`specs/Locality.antt`).
//! - After `new` no call allocates, except for a step that makes a node of a tree.
//!
//! Names are given over the places of a grid, of a tree that grows, or of segments in a row (`RenamePlaces`), by the
//! same functions. At most 64 take part over a tree, and 16 otherwise (`WorldKind::most`). Over a grid of G doors a
//! place is reached within 4b steps and a view within G(G + 1). Over a tree the bounds are 5b and (b + 1)(6b - 2). A
//! proposal takes one step more than a view (`grid_rename_law`, `tree_rename_law`).
//!
//! Participants of whom b have begun make at most S(b) = 3(5^b - 1)/4 proposals, all together, whatever the schedule is,
//! and each makes at most half of them and one (`model_asked::rounds`). So each participant is named or spent within
//! `steps_among` accepted steps of its own (`specs/Ends.antt`, `law_of_steps_among`). If twice the round limit is above
//! S(b) + 2, nobody is spent, and renaming is wait-free (`Config::cannot_spend`).
//!
//! A participant that runs solo, with two proposals left, is named much sooner (`specs/Alone.antt`,
//! `law_of_steps_alone`). Where at most m take part, it makes at most 4m + 11G + 1 steps over a grid of G doors.
//! Over a tree it makes at most 5m + 11(6m - 2) + 1. The others may have crashed anywhere.
//!
//! `step_short` is `step` with a reply of a few bytes: the view that it shows, which takes a kilobyte, is kept beside
//! it.
//!
//! From `tests_model/src/renaming_tests.rt`, over segments in a row:
//!
//! ```text
//! let config = Config::new(WorldKind::Rename, most, 4, 2)?;
//! RenameWorld::new(alloc, config)
//! ..
//! let begun = [world.begin(20), world.begin(10)];
//! for (id, steps) in &TURNS {
//!     take_steps(world, *id, *steps);
//! }
//! let names = [world.name_of(10), world.name_of(20)];
//! let is_proposed = world.proposals() == view_of(&[(10, 2), (20, 3)]);
//! begun == [Ok(()), Ok(())] && names == [Some(2), Some(3)] && is_proposed
//! ```

pub mod over;
pub mod places;
pub mod proposal;
pub mod reply;
pub mod round;
mod step;
pub mod world;
