//! Texts of fields: numbers, dates, logicals and memo numbers, right or nearly so.
use crate::random::Random;

const ODD: &[u8] = b" -.,0123456789+eE/:;\0\t\xA0\xB0";

/// A value near a power of ten, near the ends of the 64-bit numbers, or of any size.
pub fn value(r: &mut Random) -> i64 {
    let power = |r: &mut Random| 10i64.pow(r.below(19) as u32);
    match r.below(8) {
        0 => r.bits() as i64,
        1 => r.pick(&[
            0,
            i64::MIN,
            i64::MAX,
            999_999_999_999_999_999,
            -999_999_999_999_999_999,
        ]),
        2 => power(r) + r.below(3) as i64 - 1,
        3 => -(power(r) + r.below(3) as i64 - 1),
        _ => {
            let size = power(r) as u64;
            let v = (r.bits() % size) as i64;
            if r.one_in(3) {
                -v
            } else {
                v
            }
        }
    }
}

/// A width and a decimal count, mostly good ones.
pub fn format(r: &mut Random) -> (usize, u32) {
    let width = match r.below(16) {
        0 => r.below(24),
        1 => 20,
        _ => r.between(1, 20),
    };
    let most = width.saturating_sub(2).min(15);
    let decimals = match r.below(16) {
        0 => r.near(&[0, 1, 15, 16, width as u32, u32::MAX]),
        1 => most as u32,
        2 => most as u32 + 1,
        3..=7 => 0,
        _ => r.between(most.min(1), most) as u32,
    };
    (width, decimals)
}

/// The text of a value, blanks on the left as far as there is room: longer than the width where it does not fit.
fn written(v: i64, width: usize, decimals: u32) -> Vec<u8> {
    let mut made = Vec::with_capacity(24);
    let mut rest = v.unsigned_abs();
    let d = decimals.min(20) as usize;
    let mut digits = 0;
    while rest > 0 || digits <= d {
        if digits == d && d > 0 {
            made.push(b'.');
        }
        made.push(b'0' + (rest % 10) as u8);
        rest /= 10;
        digits += 1;
    }
    if v < 0 {
        made.push(b'-');
    }
    while made.len() < width {
        made.push(b' ');
    }
    made.reverse();
    made
}

/// The text without its zero before the point, if that is its whole part. A blank on the left makes up for it if the text is then shorter than the width.
fn without_zero(mut text: Vec<u8>, width: usize) -> Vec<u8> {
    let Some(point) = text.iter().position(|&c| c == b'.') else {
        return text;
    };
    if text[point - 1] != b'0' || (point > 1 && text[point - 2].is_ascii_digit()) {
        return text;
    }
    text.remove(point - 1);
    if text.len() < width {
        text.insert(0, b' ');
    }
    text
}

/// A value whose whole part is zero, in units of 10 to the -decimals.
fn below_one(r: &mut Random, decimals: u32) -> i64 {
    value(r) % 10i64.pow(decimals.min(18))
}

/// Changes one character, moves the text on by one, or swaps two neighbours.
fn spoil(r: &mut Random, text: &mut [u8]) {
    if text.is_empty() {
        return;
    }
    let at = r.below(text.len());
    match r.below(6) {
        0 => text[at..].rotate_left(1),
        1 => text[..at].rotate_left(1.min(at)),
        2 if at > 0 => text.swap(at - 1, at),
        3 => text[at] = b'0',
        _ => text[at] = r.pick(ODD),
    }
}

/// A numeric text for a format: a value's text, with its zero before the point or without, that text spoilt, blanks, or characters that numbers are made of.
pub fn number(r: &mut Random, width: usize, decimals: u32) -> Vec<u8> {
    let mut text = match r.below(10) {
        0 => vec![b' '; width],
        1 => (0..width).map(|_| r.pick(ODD)).collect(),
        2 => (0..width).map(|_| r.pick(b"  -..0019")).collect(),
        3 | 4 => {
            let v = below_one(r, decimals);
            let made = without_zero(written(v, width, decimals), width);
            made[made.len() - width..].to_vec()
        }
        _ => {
            let v = value(r);
            let made = written(v, width, decimals);
            made[made.len() - width..].to_vec()
        }
    };
    if r.one_in(3) {
        spoil(r, &mut text);
        if r.one_in(4) {
            spoil(r, &mut text);
        }
    }
    text
}

/// A numeric text that is read: a value's text, with its zero before the point or without, if it fits, else blanks.
pub fn good_number(r: &mut Random, width: usize, decimals: u32) -> Vec<u8> {
    let mut v = value(r) % 1_000_000_000_000_000_000;
    let dropped = r.one_in(4);
    if dropped {
        v = below_one(r, decimals);
    }
    let mut text = written(v, width, decimals);
    if dropped && v != 0 {
        text = without_zero(text, width);
    }
    if text.len() == width {
        text
    } else {
        vec![b' '; width]
    }
}

fn two(n: usize) -> [u8; 2] {
    [b'0' + (n / 10 % 10) as u8, b'0' + (n % 10) as u8]
}

fn digits_of(year: usize, month: usize, day: usize) -> [u8; 8] {
    let parts = [two(year / 100), two(year), two(month), two(day)];
    parts.concat().try_into().unwrap()
}

/// A date's eight characters.
pub fn date(r: &mut Random) -> [u8; 8] {
    if r.one_in(8) {
        return [b' '; 8];
    }
    let year = match r.below(4) {
        0 => r.pick(&[0, 1, 4, 100, 400, 1900, 2000, 2023, 2024, 2100, 9999]),
        1 => 100 * r.below(100),
        _ => r.below(10_000),
    };
    let month = if r.one_in(3) { 2 } else { r.below(14) };
    let day = match r.below(3) {
        0 => r.below(100),
        _ => r.pick(&[0, 1, 28, 29, 30, 31, 32]),
    };
    let mut text = digits_of(year, month, day);
    if r.one_in(6) {
        spoil(r, &mut text);
    }
    text
}

/// A date that is read: a day of any year, or blanks.
pub fn good_date(r: &mut Random) -> [u8; 8] {
    let (year, month, day) = (r.between(1, 9999), r.between(1, 12), r.between(1, 28));
    match r.below(4) {
        0 => [b' '; 8],
        1 => *b"20240229",
        _ => digits_of(year, month, day),
    }
}

pub fn logical(r: &mut Random) -> u8 {
    match r.below(8) {
        0 => r.byte(),
        _ => r.pick(b"TF TF tfYN?\0"),
    }
}

/// A memo number's ten characters that is read: no leading zero, or blanks.
pub fn good_memo_number(r: &mut Random) -> [u8; 10] {
    let digits = r.between(1, 10);
    let mut text = [b' '; 10];
    if r.one_in(4) {
        return text;
    }
    text[10 - digits..].fill_with(|| r.between(b'1' as usize, b'9' as usize) as u8);
    text
}

/// A memo number's ten characters, near the numbers given.
pub fn memo_number(r: &mut Random, near: &[u64]) -> [u8; 10] {
    let mut text = [b' '; 10];
    if r.one_in(10) {
        return text;
    }
    let number = match r.below(8) {
        0 => r.below(40) as u64,
        1 => r.bits() % 10_000_000_000,
        2 => 9_999_999_999,
        3 => r.pick(near).saturating_sub(1),
        4 => r.pick(near) + 1,
        _ => r.pick(near),
    };
    let digits = number.to_string().into_bytes();
    let digits = &digits[digits.len().saturating_sub(10)..];
    text[10 - digits.len()..].copy_from_slice(digits);
    match r.below(16) {
        0 => text[..10 - digits.len()].fill(b'0'),
        1 => spoil(r, &mut text),
        _ => (),
    }
    text
}
