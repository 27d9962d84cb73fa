//! Which sources end inside a character. The Rust refuses them with all others that are not UTF-8; the library
//! tells them apart.

use std::{collections::BTreeSet, sync::LazyLock};

use oracle::calls::NOT_UTF8;

use crate::damage::BORDERS;

/// The refusal of a source that ends inside a character
pub const ENDS_INSIDE: u32 = 10;

/// The beginnings of characters, none of them whole, as the characters themselves have them
static BEGINNINGS: LazyLock<BTreeSet<Vec<u8>>> = LazyLock::new(|| {
    let mut found = BTreeSet::new();
    for char in '\0'..=char::MAX {
        let (mut memory, bytes) = ([0; 4], char.len_utf8());
        char.encode_utf8(&mut memory);
        // The last byte, which no beginning has, tells 64 characters apart
        if bytes > 1 && memory[bytes - 1] == 0x80 {
            found.extend((1..bytes).map(|count| memory[..count].to_vec()));
        }
    }
    found
});

/// The beginnings of characters, each once
pub fn beginnings() -> impl Iterator<Item = &'static [u8]> {
    BEGINNINGS.iter().map(Vec::as_slice)
}

/// The refusal of a source that the Rust refuses so
pub fn refusal(rust: u32, source: &[u8]) -> u32 {
    if rust == NOT_UTF8 && ends_inside(source) {
        ENDS_INSIDE
    } else {
        rust
    }
}

/// Whether the beginning of a character remains when whole ones are taken off the front
pub fn ends_inside(source: &[u8]) -> bool {
    BEGINNINGS.contains(rest(source))
}

/// What remains when whole characters are taken off the front
fn rest(mut source: &[u8]) -> &[u8] {
    while let Some(bytes) = first_character(source) {
        source = &source[bytes..];
    }
    source
}

/// The bytes of the character at the front: that which is written with these bytes
fn first_character(source: &[u8]) -> Option<usize> {
    (1..=source.len().min(4)).find(|&bytes| {
        let bytes = &source[..bytes];
        spelt(bytes).is_some_and(|char| char.encode_utf8(&mut [0; 4]).as_bytes() == bytes)
    })
}

/// The character that the bytes spell, should they be the form for so many bytes
fn spelt(bytes: &[u8]) -> Option<char> {
    let first = bytes[0] & [0x7f, 0x1f, 0x0f, 0x07][bytes.len() - 1];
    char::from_u32(bytes[1..].iter().fold(first as u32, |number, byte| number << 6 | (byte & 0x3f) as u32))
}

/// Holds this to the standard library, on all rows of up to three bytes and on four bytes at borders
pub fn hold() {
    let hold = |row: &[u8]| {
        let (valid, cut) = match std::str::from_utf8(row) {
            Ok(_) => (row.len(), false),
            Err(error) => (error.valid_up_to(), error.error_len().is_none()),
        };
        assert_eq!((row.len() - rest(row).len(), ends_inside(row)), (valid, cut), "{}", row.escape_ascii());
    };
    for number in 0..1 << 24 {
        let [third, second, first, _] = u32::to_le_bytes(number);
        let row = [first, second, third];
        (0..=3).filter(|&bytes| row[bytes..] == [0; 3][bytes..]).for_each(|bytes| hold(&row[..bytes]));
    }
    for number in 0..BORDERS.len().pow(4) {
        hold(&[0, 1, 2, 3].map(|place| BORDERS[number / BORDERS.len().pow(place) % BORDERS.len()]));
    }
}
