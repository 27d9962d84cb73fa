//! Offsets to look up, line tables that are not right, and bytes that are not UTF-8.

use crate::Random;

/// An offset of which a lookup might go wrong: at and around line starts, at the end and past it
pub fn offset(random: &mut Random, lines: &[u32], bytes: usize) -> u32 {
    let bytes = bytes as u32;
    match random.below(8) {
        0..=2 if !lines.is_empty() => {
            let start = lines[random.below(lines.len())];
            random.pick(&[start, start.saturating_sub(1), start.saturating_add(1)])
        }
        3..=4 => random.below(bytes as usize + 2) as u32,
        5 => bytes + random.below(100) as u32,
        6 => random.pick(&[0, u32::MAX, u32::MAX - 1, 1 << 31, 1 << 24, (1 << 24) + 1]),
        _ => random.number() as u32,
    }
}

/// Damages a line table; now and then it is still right, or empty
pub fn lines(random: &mut Random, lines: &mut Vec<u32>) {
    let place = random.below(lines.len().max(1));
    match random.below(9) {
        0 => lines.clear(),
        1 if !lines.is_empty() => drop(lines.remove(0)),
        2 if !lines.is_empty() => lines[0] = 1 + random.below(3) as u32,
        3 if !lines.is_empty() => lines.insert(place, lines[place]),
        4 if lines.len() > 1 => {
            let other = random.below(lines.len());
            lines.swap(place, other);
        }
        5 => lines.push(0),
        6 => lines.push(u32::MAX),
        7 if !lines.is_empty() => lines[place] = random.number() as u32,
        _ => {
            let last = lines.last().copied().unwrap_or(0);
            lines.push(last.wrapping_add(random.below(3) as u32));
        }
    }
}

/// A line table of any shape, mostly right
pub fn any_lines(random: &mut Random) -> Vec<u32> {
    let step = random.pick(&[2, 5, 100, 1 << 20, 1 << 30]);
    let mut table = vec![0];
    for _ in 0..random.below(40) {
        let Some(next) = table.last().and_then(|&last: &u32| last.checked_add(1 + random.below(step) as u32)) else {
            break;
        };
        table.push(next);
    }
    if random.one_in(3) {
        lines(random, &mut table);
    }
    table
}

/// Bytes at the borders of the ranges that RFC 3629 names
pub const BORDERS: [u8; 28] = [
    0x00, b'a', b'\n', 0x7f, 0x80, 0x8f, 0x90, 0x9f, 0xa0, 0xbf, 0xc0, 0xc1, 0xc2, 0xdf, 0xe0, 0xe1, 0xec, 0xed, 0xee,
    0xef, 0xf0, 0xf1, 0xf3, 0xf4, 0xf5, 0xf7, 0xf8, 0xff,
];

/// The bytes of a number in the form for that many bytes, whether or not that form is allowed
pub fn encoded(number: u32, bytes: usize) -> Vec<u8> {
    let lead = [0, 0, 0xc0, 0xe0, 0xf0, 0xf8, 0xfc][bytes];
    let mut out: Vec<u8> = (0..bytes).rev().map(|i| 0x80 | (number >> (6 * i)) as u8 & 0x3f).collect();
    out[0] = lead | (number >> (6 * (bytes - 1))) as u8;
    out
}

/// A short piece that is not UTF-8: cut off, a surrogate, overlong, above the last character, or
/// bytes that stand nowhere
pub fn not_utf8(random: &mut Random) -> Vec<u8> {
    match random.below(8) {
        0..=1 => {
            let number = random.pick(&[0xe9, 0x7ff, 0x800, 0x20ac, 0xffff, 0x10000, 0x1f600, 0x10ffff]);
            let whole = char::from_u32(number).unwrap().to_string().into_bytes();
            whole[..1 + random.below(whole.len() - 1)].to_vec()
        }
        2 => encoded(0xd800 + random.below(0x800) as u32, 3),
        3 => encoded(random.below(0x80) as u32, 2),
        4 => encoded(random.below(0x800) as u32, 3),
        5 => encoded(random.below(0x10000) as u32, 4),
        6 => match random.below(3) {
            0 => encoded(0x110000 + random.below(0xf0000) as u32, 4),
            1 => encoded(random.below(1 << 26) as u32, 5),
            _ => encoded(random.below(1 << 31) as u32, 6),
        },
        _ => vec![random.pick(&[0x80, 0xbf, 0xc0, 0xc1, 0xf5, 0xf8, 0xfe, 0xff])],
    }
}
