// Erased by bindings/rust/erase from crates/text_lines/src/held/telling.rt, sha256 c28ac2523762bd451891329488de6f1d8b3aecce17a04c8f4bbedf9438b3f46e.
//! The answers to lines that ask for the holders of numbers.

use crate::kit::alloc::Allocator;
use crate::proved::model_pool::slots::slots::Slots;
use crate::proved::text_lines::held::query::HeldQuery;
use crate::proved::text_lines::print::{put_number, put_word};
use crate::proved::text_lines::replies::Replies;

/// How many numbers a page is of.
pub const PAGE: u64 = 64;

// Appends the line of a number with its holder and the value of its slot.
fn put_holder<B: Allocator>(number: u64, id: u64, value: u64, out: &mut Replies<B>) {
    put_number(number, out);
    out.put(b" ");
    put_number(id, out);
    out.put(b" ");
    put_number(value, out);
    out.put(b"\n");
}

// Returns the value in the slot of number `before + 1`.
fn value_behind(values: &[u64], before: u32) -> u64 {
    let at = before as usize;
    if at < values.len() {
        values[at]
    } else {
        0
    }
}

// Appends the line of number `before + 1`, if an identity holds it.
fn put_line<A: Allocator, B: Allocator>(slots: &Slots<u64, A>, before: u32, out: &mut Replies<B>) {
    let number = before + 1;
    if let Some(id) = slots.pool().holder_of(number) {
        put_holder(
            u64::from(number),
            id,
            value_behind(slots.values(), before),
            out,
        );
    }
}

/// Appends the lines of so many numbers behind this one that are held, in rising order: those of a page at most.
pub fn put_lines<A: Allocator, B: Allocator>(
    slots: &Slots<u64, A>,
    before: u32,
    count: u32,
    out: &mut Replies<B>,
) {
    for at in 0..count {
        put_line(slots, before + at, out);
    }
}

// Appends the number that the next page begins with, or `ok` behind the last page.
fn put_page_end<B: Allocator>(size: u64, before: u64, out: &mut Replies<B>) {
    if size <= before.saturating_add(PAGE) {
        out.put(b"ok\n");
        return;
    }
    put_word(b"more ", before + (PAGE + 1), out);
    out.put(b"\n");
}

// Appends a page of the numbers behind this one.
fn put_page<A: Allocator, B: Allocator>(slots: &Slots<u64, A>, before: u64, out: &mut Replies<B>) {
    let size = slots.pool().size();
    let count = size.saturating_sub(before).min(PAGE);
    if 0 < count {
        put_lines(slots, before as u32, count as u32, out);
    }
    put_page_end(size, before, out);
}

// Appends the line of the number that an identity holds, or `none` if it holds none.
fn put_one<A: Allocator, B: Allocator>(slots: &Slots<u64, A>, id: u64, out: &mut Replies<B>) {
    match slots.pool().number_of(id) {
        Ok(number) => {
            let value = value_behind(slots.values(), number - 1);
            put_holder(u64::from(number), id, value, out);
        }
        Err(_) => out.put(b"none\n"),
    }
}

/// Appends the answer to a query. This changes nothing of the pool.
///
/// - `All`: a line `NUMBER ID VALUE` for each of the first 64 numbers that is held, in rising order. The last line is `ok`; or
///   `more N`, where the pool has more numbers, of which `N` is the first.
/// - `From`: the same, of the 64 numbers from this one on.
/// - `Of`: the line of that identity, or `none` if it holds no number.
pub fn put_held<A: Allocator, B: Allocator>(
    slots: &Slots<u64, A>,
    query: HeldQuery,
    out: &mut Replies<B>,
) {
    match query {
        HeldQuery::All => put_page(slots, 0, out),
        HeldQuery::From(first) => put_page(slots, first.saturating_sub(1), out),
        HeldQuery::Of(id) => put_one(slots, id, out),
    }
}
