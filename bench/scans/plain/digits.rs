//! Numbers in decimal, read and written.

const UPPER: u64 = 0xf0f0_f0f0_f0f0_f0f0;
const ZEROS: u64 = 0x3030_3030_3030_3030;
const SIXES: u64 = 0x0606_0606_0606_0606;
const TENS: [u64; 8] = [1, 10, 100, 1_000, 10_000, 100_000, 1_000_000, 10_000_000];

/// How many of the first eight bytes are digits up to one that is none, and the number that those are. All eight are tested and read as one word.
#[inline(always)]
fn eight(text: &[u8]) -> Option<(u64, usize)> {
    let word = u64::from_le_bytes(text.get(..8)?.try_into().unwrap());
    let digits = word ^ ZEROS;
    let others = (digits | digits.wrapping_add(SIXES)) & UPPER;
    if others == 0 {
        return Some((joined(digits), 8));
    }
    let count = others.trailing_zeros() as usize / 8;
    // What is shifted in are zeros in front of the digits.
    let kept = if count == 0 { 0 } else { digits << (64 - 8 * count) };
    Some((joined(kept), count))
}

/// The number of eight digits, a byte each.
#[inline(always)]
fn joined(digits: u64) -> u64 {
    let pairs = digits.wrapping_mul(10).wrapping_add(digits >> 8);
    let first = (pairs & 0xff_0000_00ff).wrapping_mul(100 + (1_000_000 << 32));
    let second = ((pairs >> 16) & 0xff_0000_00ff).wrapping_mul(1 + (10_000 << 32));
    first.wrapping_add(second) >> 32
}

/// The number at the front of these bytes, and how many digits it has.
#[inline(always)]
pub fn number(text: &[u8]) -> Option<(u64, usize)> {
    let Some((first, count)) = eight(text) else {
        return number_slowly(text);
    };
    if count == 0 || (text[0] == b'0' && count != 1) {
        return None;
    }
    if count < 8 {
        return Some((first, count));
    }
    long_number(text, first)
}

/// The same, where these are the first eight digits.
#[inline(always)]
fn long_number(text: &[u8], first: u64) -> Option<(u64, usize)> {
    let Some((second, count)) = eight(&text[8..]) else {
        return number_slowly(text);
    };
    if count < 8 {
        return Some((first * TENS[count] + second, 8 + count));
    }
    let high = first * 100_000_000 + second;
    match eight(&text[16..]) {
        Some((third, count)) if count < 5 => {
            let value = if count < 4 { high * TENS[count] } else { high.checked_mul(TENS[count])? };
            Some((value.checked_add(third)?, 16 + count))
        }
        _ => number_slowly(text),
    }
}

/// The same digit by digit, near the end of the bytes or where there are too many.
#[inline(never)]
fn number_slowly(text: &[u8]) -> Option<(u64, usize)> {
    let count = text.iter().take_while(|byte| byte.is_ascii_digit()).count();
    if count == 0 || (text[0] == b'0' && count != 1) {
        return None;
    }
    let value = text[..count].iter().try_fold(0u64, |value, byte| value.checked_mul(10)?.checked_add(u64::from(byte - b'0')))?;
    Some((value, count))
}

/// Where the first LF stands, found eight bytes at a time.
#[inline(always)]
pub fn line_end(text: &[u8]) -> Option<usize> {
    const ONES: u64 = 0x0101_0101_0101_0101;
    let mut at = 0;
    while let Some(bytes) = text.get(at..at + 8) {
        let word = u64::from_le_bytes(bytes.try_into().unwrap()) ^ (ONES * u64::from(b'\n'));
        let found = word.wrapping_sub(ONES) & !word & (ONES << 7);
        if found != 0 {
            return Some(at + found.trailing_zeros() as usize / 8);
        }
        at += 8;
    }
    text[at..].iter().position(|byte| *byte == b'\n').map(|more| at + more)
}

pub fn put_number(mut number: u64, out: &mut Vec<u8>) {
    if number < 10 {
        return out.push(b'0' + number as u8);
    }
    let mut digits = [0; 20];
    let mut at = 20;
    while 10 <= number {
        at -= 2;
        let pair = 2 * (number % 100) as usize;
        digits[at..at + 2].copy_from_slice(&PAIRS[pair..pair + 2]);
        number /= 100;
    }
    if number != 0 {
        at -= 1;
        digits[at] = b'0' + number as u8;
    }
    out.extend_from_slice(&digits[at..]);
}

/// The two digits of each number below a hundred.
const PAIRS: [u8; 200] = {
    let mut pairs = [0; 200];
    let mut at = 0;
    while at < 100 {
        pairs[2 * at] = b'0' + (at / 10) as u8;
        pairs[2 * at + 1] = b'0' + (at % 10) as u8;
        at += 1;
    }
    pairs
};
