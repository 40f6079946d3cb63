// Erased by bindings/rust/erase from crates/model_renaming/src/proposal.rt, sha256 7a03a7e4673b5becdab06f13008d059cfef0b36517ba74b2131437b40001edcd.
//! Which number is proposed next.

use crate::proved::model_steps::view::View;

/// Whether another identity proposes this number, by these pairs.
fn is_taken_in(pairs: &[(u64, u64)], id: u64, number: u64) -> bool {
    pairs.iter().any(|pair| pair.0 != id && pair.1 == number)
}

/// The number of identities that are at most this one.
fn rank(pairs: &[(u64, u64)], id: u64) -> usize {
    pairs.iter().filter(|pair| pair.0 <= id).count()
}

/// For each number up to 128, whether another identity proposes it, by these pairs. With at most 64 pairs no greater
/// number is proposed next.
fn taken_numbers(pairs: &[(u64, u64)], id: u64) -> [bool; 129] {
    let mut taken = [false; 129];
    let mut i = pairs.len();
    while i > 0 {
        i -= 1;
        let (other, number) = pairs[i];
        if other != id && number < 129 {
            taken[number as usize] = true;
        }
    }
    taken
}

/// The `rank`-th positive number that no other identity proposes.
fn nth_free(pairs: &[(u64, u64)], id: u64, rank: usize) -> u64 {
    let taken = taken_numbers(pairs, id);
    let mut left = rank;
    let mut at: u64 = 0;
    while 0 < left {
        at += 1;
        if !taken[at as usize] {
            left -= 1;
        }
    }
    at
}

/// Whether an identity other than `id` proposes this number in a view.
pub fn is_taken(view: &View, id: u64, number: u64) -> bool {
    is_taken_in(view.pairs(), id, number)
}

/// Returns the next proposal of `id` after a view (Attiya et al. 1990).
///
/// It is the r-th positive number that no other identity proposes in the view, where r is the rank of `id` among its
/// identities.
pub fn next_proposal(view: &View, id: u64) -> u64 {
    let pairs = view.pairs();
    nth_free(pairs, id, rank(pairs, id))
}
