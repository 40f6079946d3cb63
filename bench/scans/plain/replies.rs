//! Replies, as they are written.

use crate::digits::put_number;
use crate::snapshot::View;

pub fn put_line(word: &[u8], number: u64, out: &mut Vec<u8>) {
    out.extend_from_slice(word);
    put_number(number, out);
    out.push(b'\n');
}

/// The line of a refusal by its number.
pub fn put_refused(number: u64, out: &mut Vec<u8>) {
    if 10 <= number {
        return put_line(b"refused ", number, out);
    }
    let mut line = *b"refused 0\n";
    line[8] += number as u8;
    out.extend_from_slice(&line);
}

/// The pairs of a view to the end of the line.
pub fn put_view(view: &View, out: &mut Vec<u8>) {
    for (at, (identity, value)) in view.iter().enumerate() {
        if at != 0 {
            out.push(b' ');
        }
        put_number(*identity, out);
        out.push(b':');
        put_number(*value, out);
    }
    out.push(b'\n');
}

pub fn put_done(done: Result<(), u64>, out: &mut Vec<u8>) {
    match done {
        Ok(()) => out.extend_from_slice(b"ok\n"),
        Err(number) => put_refused(number, out),
    }
}

/// The line of a word and a number, or of a refusal.
pub fn put_told(word: &[u8], told: Result<u64, u64>, out: &mut Vec<u8>) {
    match told {
        Ok(number) => put_line(word, number, out),
        Err(number) => put_refused(number, out),
    }
}
