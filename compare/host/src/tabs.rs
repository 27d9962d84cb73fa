//! What the Rust is asked about a source with vertical tabs (byte 11): they are blanks, and it takes them for none.

use std::borrow::Cow;

pub const VERTICAL_TAB: u8 = 11;

pub fn has(source: &[u8]) -> bool {
    source.contains(&VERTICAL_TAB)
}

/// The source with a tab, which the Rust takes for a blank, in place of each vertical tab. Unescaping, in which no blank
/// has a part, is asked about the source itself.
pub fn asked(source: &[u8]) -> Cow<'_, [u8]> {
    if !has(source) {
        return source.into();
    }
    source.iter().map(|&byte| if byte == VERTICAL_TAB { b'\t' } else { byte }).collect()
}
