// Erased by bindings/rust/erase from crates/text_lines/src/quick.rt, sha256 4e143c1e337a3efbe7c502a87a4f762a4dd645b4777e56f6a64d4ff54be751cd.
//! The commonest commands, read in one pass over their bytes.

use crate::proved::model_asked::command::Command;
use crate::proved::model_asked::event::Event;
use crate::proved::model_asked::kind::WorldKind;

/// The byte between two words.
const SPACE: u8 = 32;

/// The first four bytes of each word, with its space where it has three letters, as a number: the first byte is the lowest.
const STEP: u32 = 0x7065_7473;

const BEGIN: u32 = 0x6967_6562;

const PROBE: u32 = 0x626f_7270;

const ENTER: u32 = 0x6574_6e65;

const LEAVE: u32 = 0x7661_656c;

const GET: u32 = 0x2074_6567;

const PUT: u32 = 0x2074_7570;

/// The first four bytes as a number, or `None` if there are fewer.
#[inline(always)]
pub(crate) fn first_four(bytes: &[u8]) -> Option<u32> {
    let [a, b, c, d, ..] = bytes else {
        return None;
    };
    Some(u32::from_le_bytes([*a, *b, *c, *d]))
}

/// Returns the command that the bytes before the first `end` mean, and the index of that `end`, in one pass.
///
/// It knows the commonest commands. `None` means nothing: `parse_line` then decides.
#[inline(always)]
pub fn quick_command(bytes: &[u8], world: WorldKind, end: u8) -> Option<(Command, usize)> {
    let word = first_four(bytes)?;
    if word == STEP {
        let [_, _, _, _, b' ', number @ ..] = bytes else {
            return None;
        };
        let (id, count) = quick_number(number, end)?;
        return Some((Command::Event(Event::Step(id)), count + 5));
    }
    if word != BEGIN && !world.gives_names() {
        return None;
    }
    match last_of_five(word) {
        Some(last) => quick_five(bytes, word, last, world, end),
        None => quick_three(bytes, word, end),
    }
}

/// The last letter of a word of five letters that takes one number, by its first four bytes.
#[inline(always)]
fn last_of_five(word: u32) -> Option<u8> {
    match word {
        BEGIN => Some(b'n'),
        PROBE => Some(b'e'),
        ENTER => Some(b'r'),
        LEAVE => Some(b'e'),
        _ => None,
    }
}

/// As `quick_command`, for a word of five letters, by its first four bytes and its last.
///
/// The number is read at one place for all of them, so that the code is small enough to inline.
#[inline(always)]
fn quick_five(
    bytes: &[u8],
    word: u32,
    last: u8,
    _world: WorldKind,
    end: u8,
) -> Option<(Command, usize)> {
    if bytes.len() < 6 {
        return None;
    }
    if bytes[4] != last {
        return None;
    }
    if bytes[5] != SPACE {
        return None;
    }
    let (id, count) = quick_number(&bytes[6..], end)?;
    let event = match word {
        BEGIN => Event::Begin(id),
        PROBE => Event::Probe(id),
        ENTER => Event::Enter(id),
        LEAVE => Event::Leave(id),
        _ => return None,
    };
    Some((Command::Event(event), count + 6))
}

/// As `quick_command`, for words of three letters, by their first four bytes.
#[inline(never)]
fn quick_three(bytes: &[u8], word: u32, end: u8) -> Option<(Command, usize)> {
    let numbers = &bytes[4..];
    match word {
        GET => {
            let (id, count) = quick_number(numbers, end)?;
            Some((Command::Event(Event::Get(id)), count + 4))
        }
        PUT => {
            let (id, first) = quick_number(numbers, SPACE)?;
            let (value, second) = quick_number(&numbers[first + 1..], end)?;
            Some((Command::Event(Event::Put(id, value)), first + second + 5))
        }
        _ => None,
    }
}

/// The most digits whose number always fits in 64 bits.
const SURE_DIGITS: usize = 19;

/// Returns the number that the digits before the byte `end` write, and the count of digits. `None` means nothing.
#[inline(always)]
pub fn quick_number(text: &[u8], end: u8) -> Option<(u64, usize)> {
    if text.len() < 4 {
        return few_digits(text, 0, 0, end);
    }
    let one = one_more(text, 0, 0)?;
    let Some(two) = one_more(text, one, 1) else {
        return number_before(text, one, 1, end);
    };
    let Some(three) = one_more(text, two, 2) else {
        return number_before(text, two, 2, end);
    };
    let Some(four) = one_more(text, three, 3) else {
        return number_before(text, three, 3, end);
    };
    long_number(text, four, end)
}

/// As `quick_number`, after four digits, with eight digits at once if there are so many.
///
/// Both words are tested before either is made a number, so that the constants of the two need no registers at once.
#[inline(always)]
fn long_number(text: &[u8], first: u64, end: u8) -> Option<(u64, usize)> {
    if text.len() < 21 {
        return few_digits(text, first, 4, end);
    }
    let Some(next) = eight_digits(&text[4..]) else {
        return few_digits(text, first, 4, end);
    };
    let Some(last) = eight_digits(&text[12..]) else {
        let twelve = with_eight(text, first, next);
        return few_digits(text, twelve, 12, end);
    };
    let twelve = with_eight(text, first, next);
    let twenty = twelve
        .checked_mul(100_000_000)?
        .checked_add(value_of_eight(last))?;
    number_before(text, twenty, 20, end)
}

/// The upper half of each byte of a word.
const UPPER_HALVES: u64 = 0xf0f0_f0f0_f0f0_f0f0;

/// Eight digits 0 as a word.
const ZEROS: u64 = 0x3030_3030_3030_3030;

/// Added to digits, it leaves the upper half of each byte 0 if and only if the byte is below 10.
const SIXES: u64 = 0x0606_0606_0606_0606;

/// The first eight bytes as a word, less the word of eight digits 0, if all of them are digits. They are tested as one
/// word.
#[inline(always)]
fn eight_digits(text: &[u8]) -> Option<u64> {
    let bytes = text.first_chunk::<8>()?;
    let word = u64::from_le_bytes(*bytes);
    if word & UPPER_HALVES != ZEROS {
        return None;
    }
    let digits = word - ZEROS;
    if (digits + SIXES) & UPPER_HALVES != 0 {
        return None;
    }
    Some(digits)
}

/// The number that the eight digits of a word write, the first in the lowest byte.
///
/// Each digit and the next form a pair. Two multiplications put two sums into the upper half: that of the first and
/// third pair, and that of the second and last, each with its weight.
#[inline(always)]
fn value_of_eight(digits: u64) -> u64 {
    let pairs = digits.wrapping_mul(10).wrapping_add(digits >> 8);
    let first = (pairs & 0xff_0000_00ff).wrapping_mul(100 + (1_000_000 << 32));
    let second = ((pairs >> 16) & 0xff_0000_00ff).wrapping_mul(1 + (10_000 << 32));
    first.wrapping_add(second) >> 32
}

/// The number of the first twelve bytes: the first four write `first`, and the next eight are the digits `next`.
#[inline(always)]
fn with_eight(_text: &[u8], first: u64, next: u64) -> u64 {
    first * 100_000_000 + value_of_eight(next)
}

/// As `quick_number`, digit by digit, after the digits that were read. Returns `None` if there are more digits than
/// always fit.
#[inline(always)]
fn few_digits(text: &[u8], first: u64, from: usize, end: u8) -> Option<(u64, usize)> {
    let most = text.len().min(SURE_DIGITS);
    let mut value = first;
    let mut at = from;
    while at < most {
        let Some(next) = one_more(text, value, at) else {
            break;
        };
        value = next;
        at += 1;
    }
    number_before(text, value, at, end)
}

/// The number with one more digit, or `None` if the next byte is no digit.
#[inline(always)]
fn one_more(text: &[u8], value: u64, count: usize) -> Option<u64> {
    let digit = u64::from(text[count]).wrapping_sub(48);
    if 9 < digit {
        return None;
    }
    Some(value * 10 + digit)
}

/// This number, if its digits are those of a number and the byte `end` follows them.
#[inline(always)]
fn number_before(text: &[u8], value: u64, count: usize, end: u8) -> Option<(u64, usize)> {
    if count == 0 || text.len() <= count || text[count] != end {
        return None;
    }
    if text[0] == b'0' && count != 1 {
        return None;
    }
    Some((value, count))
}
