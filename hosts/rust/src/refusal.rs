//! Why a call was refused.
use std::error;
use std::fmt;

use crate::{CONCAT_LIMIT, SOURCE_LIMIT};

/// Why a call was refused. A refused call answers nothing else. Of several reasons the one that is checked first is
/// given, which need not be the smallest number: [`Cut`](Refusal::Cut) is checked with [`Utf8`](Refusal::Utf8), before
/// [`Concats`](Refusal::Concats).
///
/// [`read`](crate::read) gives [`Length`](Refusal::Length), [`Utf8`](Refusal::Utf8), [`Cut`](Refusal::Cut) and
/// [`Concats`](Refusal::Concats) alone, since it lends tables that are long enough.
///
/// ```
/// use shader_reader::{read, Refusal};
///
/// let refusal = read(b"caf\xe9 au lait").unwrap_err();
/// assert_eq!(refusal, Refusal::Utf8);
/// assert_eq!(refusal.number(), 2);
/// assert_eq!(refusal.to_string(), "the source is not UTF-8: convert it to UTF-8");
///
/// let refusal = read(b"caf\xc3").unwrap_err();
/// assert_eq!(refusal, Refusal::Cut);
/// assert_eq!(refusal.number(), 10);
/// assert_eq!(refusal.to_string(), "the file ends inside a character: the upload was cut");
/// ```
#[derive(Debug, Clone, Copy, PartialEq, Eq, PartialOrd, Ord, Hash)]
#[repr(u8)]
pub enum Refusal {
    /// The source or text is longer than [`SOURCE_LIMIT`](crate::SOURCE_LIMIT) bytes.
    Length = 1,
    /// It is not UTF-8 (RFC 3629), nor does it end inside a character, which is [`Cut`](Refusal::Cut).
    /// [`message`](Refusal::message) names the first bad byte, and [`std::str::from_utf8`] tells where it stands.
    Utf8 = 2,
    /// Some body holds more than [`CONCAT_LIMIT`](crate::CONCAT_LIMIT) `##`.
    Concats = 3,
    /// The entry or token table is too short.
    Entries = 4,
    /// The error table is too short.
    Errors = 5,
    /// The line table is too short.
    Lines = 6,
    /// The line table of a lookup does not start at 0, or does not rise.
    Lookup = 7,
    /// The output of unescaping is too short.
    Output = 8,
    /// A pasted kind is no kind, or LINECONT.
    Kind = 9,
    /// The source or text is UTF-8 up to its end, where a character begins that is not whole: there
    /// [`std::str::from_utf8`] meets an error without a length.
    Cut = 10,
}

impl Refusal {
    /// All refusals, by number from 1 on.
    pub const ALL: &'static [Refusal] = &[
        Refusal::Length,
        Refusal::Utf8,
        Refusal::Concats,
        Refusal::Entries,
        Refusal::Errors,
        Refusal::Lines,
        Refusal::Lookup,
        Refusal::Output,
        Refusal::Kind,
        Refusal::Cut,
    ];

    /// The number that the library answers; 0 is no refusal.
    pub const fn number(self) -> u32 {
        self as u32
    }

    /// The refusal of that number.
    pub fn from_number(number: u32) -> Option<Refusal> {
        Refusal::ALL.iter().copied().find(|refusal| refusal.number() == number)
    }

    /// What is wrong with a source that was refused: the words of [`Display`](fmt::Display), and for
    /// [`Utf8`](Refusal::Utf8) the first bad byte, for [`Cut`](Refusal::Cut) where the character begins.
    ///
    /// ```
    /// let message = |src: &[u8]| shader_reader::read(src).unwrap_err().message(src);
    ///
    /// let bad = "the source is not UTF-8, byte 0xE9 at offset 3: convert it to UTF-8";
    /// assert_eq!(message(b"caf\xe9 au lait"), bad);
    /// let cut = "the file ends inside a character: the upload was cut, the character begins at offset 3";
    /// assert_eq!(message(b"caf\xc3"), cut);
    /// ```
    pub fn message(self, src: &[u8]) -> String {
        let at = std::str::from_utf8(src).map_or_else(|wrong| wrong.valid_up_to(), str::len);
        match (self, src.get(at)) {
            (Refusal::Utf8, Some(byte)) => {
                format!("the source is not UTF-8, byte 0x{byte:02X} at offset {at}: convert it to UTF-8")
            }
            (Refusal::Cut, Some(_)) => format!("{self}, the character begins at offset {at}"),
            _ => self.to_string(),
        }
    }

    /// What the library answered.
    pub(crate) fn check(number: u32) -> Result<(), Refusal> {
        match number {
            0 => Ok(()),
            _ => Err(Refusal::from_number(number).unwrap_or_else(|| crate::other_library("refusal", number))),
        }
    }
}

/// What is wrong, and what helps.
impl fmt::Display for Refusal {
    fn fmt(&self, f: &mut fmt::Formatter<'_>) -> fmt::Result {
        match self {
            Refusal::Length => write!(f, "the source is longer than {SOURCE_LIMIT} bytes: split it"),
            Refusal::Utf8 => write!(f, "the source is not UTF-8: convert it to UTF-8"),
            Refusal::Concats => write!(f, "a body holds more than {CONCAT_LIMIT} ##: split it"),
            Refusal::Entries => write!(f, "the entry or token table is too short: lend a longer one"),
            Refusal::Errors => write!(f, "the error table is too short: lend a longer one"),
            Refusal::Lines => write!(f, "the line table is too short: lend a longer one"),
            Refusal::Lookup => {
                write!(f, "the line table does not start at 0 or does not rise: lend one that a call filled")
            }
            Refusal::Output => write!(f, "the output is too short: lend as many bytes as the text has"),
            Refusal::Kind => write!(f, "a kind to paste is LINECONT or none at all: lend the kinds of two leaves"),
            Refusal::Cut => write!(f, "the file ends inside a character: the upload was cut"),
        }
    }
}

impl error::Error for Refusal {}
