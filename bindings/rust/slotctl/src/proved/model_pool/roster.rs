// Erased by bindings/rust/erase from crates/model_pool/src/roster.rt, sha256 21e72854cc23ba29664c38d15664ae3ad03d2a3959939a8ad039c8a087b623ab.
//! The competitors, and an index of their identities.

use crate::kit::alloc::Allocator;
use crate::kit::Clone;
use crate::kit::Vec;
use crate::proved::model_pool::competitor::Competitor;
use crate::proved::model_pool::entry::Entry;
use crate::proved::model_pool::stay::Stay;
use crate::proved::model_steps::refusal::NoMemory;

/// Mixes the bits of an identity: 2^64 over the golden ratio.
const MIX: u64 = 11_400_714_819_323_198_485;

/// Returns the bucket of an identity, of `width`.
#[inline(always)]
fn bucket_of(width: usize, id: u64) -> usize {
    let mixed = id.wrapping_mul(MIX) / 4_294_967_296;
    (mixed * width as u64 / 4_294_967_296) as usize
}

/// Whether this is a competitor with this identity.
#[inline(always)]
fn is_of(entry: &Entry, id: u64) -> bool {
    entry.identity == id && entry.stay.is_some()
}

/// Finds the entry of a competitor: goes through the identities of its bucket, from the last on.
fn walk(entries: &[Entry], heads: &[u32], links: &[u32], id: u64) -> Option<usize> {
    let mut at = heads[bucket_of(heads.len(), id)];
    while at > 0 {
        let i = (at - 1) as usize;
        if is_of(&entries[i], id) {
            return Some(i);
        }
        at = links[i];
    }
    None
}

/// Notes one more identity, which stands after those that are noted.
fn note<A: Allocator>(heads: &mut Vec<u32, A>, links: &mut Vec<u32, A>, id: u64) {
    let b = bucket_of(heads.len(), id);
    links.push_reserved(heads[b]);
    heads[b] = links.len() as u32;
}

/// Clears the heads of all buckets.
fn clear<A: Allocator>(heads: &mut Vec<u32, A>) {
    for b in 0..heads.len() {
        heads[b] = 0;
    }
}

/// Notes the identities of all these entries anew.
fn note_all<A: Allocator>(heads: &mut Vec<u32, A>, links: &mut Vec<u32, A>, entries: &[Entry]) {
    clear(heads);
    links.clear();
    for entry in entries {
        note(heads, links, entry.identity);
    }
}

/// Returns the competitor that holds this number.
fn holder(entries: &[Entry], number: u32) -> Option<u64> {
    for entry in entries {
        if let Some(stay) = entry.stay {
            if stay.holds(number) {
                return Some(entry.identity);
            }
        }
    }
    None
}

/// Appends the competitors among these entries.
fn copy<A: Allocator>(entries: &[Entry], out: &mut Vec<Competitor, A>) -> Result<(), NoMemory> {
    for entry in entries {
        if let Some(stay) = entry.stay {
            let competitor = Competitor {
                identity: entry.identity,
                stay,
            };
            if out.push(competitor).is_err() {
                return Err(NoMemory);
            }
        }
    }
    Ok(())
}

/// Drops the entries that have left.
fn drop_left<A: Allocator>(entries: &mut Vec<Entry, A>) {
    entries.retain(|entry| entry.stay.is_some());
}

/// Makes room for one more entry: where there is none, drops those that have left, and notes the others anew.
fn make_room<A: Allocator>(
    entries: &mut Vec<Entry, A>,
    heads: &mut Vec<u32, A>,
    links: &mut Vec<u32, A>,
    most: usize,
) {
    if entries.len() < 2 * most {
        return;
    }
    drop_left(entries);
    note_all(heads, links, entries);
}

/// A vector of `n` zeros.
fn zeros<A: Allocator>(alloc: A, n: usize) -> Result<Vec<u32, A>, NoMemory> {
    let Ok(mut xs) = Vec::with_capacity(alloc, n) else {
        return Err(NoMemory);
    };
    for _i in 0..n {
        xs.push_reserved(0);
    }
    Ok(xs)
}

/// The competitors, in the order in which they entered, with room for `most`.
///
/// An entry of one who leaves stays until there are twice `most`. Then those that have left are dropped, and the
/// identities of the others are noted anew. So each call goes through those of one bucket, and of two times `most` calls
/// one goes through all.
pub(crate) struct Roster<A: Allocator> {
    most: usize,
    many: usize,
    entries: Vec<Entry, A>,
    heads: Vec<u32, A>,
    links: Vec<u32, A>,
}

impl<A: Allocator + Clone> Roster<A> {
    /// Makes a roster with no competitor, and allocates room for `most`.
    pub(crate) fn new(alloc: A, most: usize) -> Result<Self, NoMemory> {
        let Ok(first) = alloc.clone() else {
            return Err(NoMemory);
        };
        let Ok(second) = alloc.clone() else {
            return Err(NoMemory);
        };
        let heads = zeros(first, 2 * most)?;
        let Ok(links) = Vec::with_capacity(second, 2 * most) else {
            return Err(NoMemory);
        };
        let Ok(entries) = Vec::with_capacity(alloc, 2 * most) else {
            return Err(NoMemory);
        };
        Ok(Roster {
            most,
            many: 0,
            entries,
            heads,
            links,
        })
    }
}

impl<A: Allocator> Roster<A> {
    /// Returns the most competitors.
    #[inline(always)]
    pub(crate) fn most(&self) -> usize {
        self.most
    }

    /// Returns how many compete.
    #[inline(always)]
    pub(crate) fn len(&self) -> usize {
        self.many
    }

    /// Appends the competitors to a list.
    pub(crate) fn copy<B: Allocator>(&self, out: &mut Vec<Competitor, B>) -> Result<(), NoMemory> {
        copy(self.entries.as_slice(), out)
    }

    /// Returns the competitor that holds this number.
    pub(crate) fn holder(&self, number: u32) -> Option<u64> {
        holder(self.entries.as_slice(), number)
    }

    /// Returns the state of the competitor with identity `id`, or `None` if it does not compete.
    pub(crate) fn stay_of(&self, id: u64) -> Option<Stay> {
        let Some(at) = walk(&self.entries, &self.heads, &self.links, id) else {
            return None;
        };
        self.entries[at].stay
    }

    /// Adds a competitor, which did not compete.
    pub(crate) fn add(&mut self, id: u64, stay: Stay) {
        make_room(
            &mut self.entries,
            &mut self.heads,
            &mut self.links,
            self.most,
        );
        note(&mut self.heads, &mut self.links, id);
        self.entries.push_reserved(Entry {
            identity: id,
            stay: Some(stay),
        });
        self.many += 1;
    }

    /// Replaces the state of the competitor with identity `id`.
    pub(crate) fn put(&mut self, id: u64, stay: Stay) {
        if let Some(at) = walk(&self.entries, &self.heads, &self.links, id) {
            self.entries[at] = Entry {
                identity: id,
                stay: Some(stay),
            };
        }
    }

    /// Removes the competitor with identity `id`.
    pub(crate) fn remove(&mut self, id: u64) {
        if let Some(at) = walk(&self.entries, &self.heads, &self.links, id) {
            self.entries[at] = Entry {
                identity: id,
                stay: None,
            };
            self.many -= 1;
        }
    }
}
