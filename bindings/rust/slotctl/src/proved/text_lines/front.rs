// Erased by bindings/rust/erase from crates/text_lines/src/front.rt, sha256 10a4d5b1d92ed436a1a142e69aa2457a902a68ab6b35aaa8355feb5b8c2196f8.
//! The bytes after a prefix.

use crate::proved::text_lines::quick::first_four;

/// Whether the first four bytes of both are the same. `false` means nothing if one of them has fewer.
#[inline(always)]
fn begin_alike(bytes: &[u8], front: &[u8]) -> bool {
    let Some(one) = first_four(bytes) else {
        return false;
    };
    let Some(other) = first_four(front) else {
        return false;
    };
    one == other
}

/// Compares four bytes at once, up to the last four of the prefix. Returns how many bytes it compared, or `None` if two
/// differ.
#[inline(always)]
fn alike_by_fours(bytes: &[u8], front: &[u8]) -> Option<usize> {
    let mut at = 0;
    while 4 <= front.len() - at {
        if !begin_alike(&bytes[at..], &front[at..]) {
            return None;
        }
        at += 4;
    }
    Some(at)
}

/// Returns the bytes after a prefix, or `None` if they do not begin with it.
///
/// It compares four bytes at once: a few instructions, and no call, if the prefix is a text of the program.
#[inline(always)]
pub fn after_front<'a>(bytes: &'a [u8], front: &[u8]) -> Option<&'a [u8]> {
    if bytes.len() < front.len() {
        return None;
    }
    let mut at = alike_by_fours(bytes, front)?;
    while at < front.len() {
        if bytes[at] != front[at] {
            return None;
        }
        at += 1;
    }
    Some(&bytes[at..])
}
