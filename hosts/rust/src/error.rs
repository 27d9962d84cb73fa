//! Errors, and lang-pp's sentences for them.
use std::fmt;
use std::ops::{Deref, Range};

use crate::kind::SyntaxKind;
use crate::rows::{Row, Rows, Span};

/// The kinds that were expected: one or two.
#[derive(Clone, Copy, PartialEq, Eq, Hash)]
pub struct Expected {
    kinds: [SyntaxKind; 2],
    count: usize,
}

impl Expected {
    /// From the two numbers of the table, of which 0 is absent.
    fn of_table(first: u32, second: u32) -> Expected {
        let mut expected = Expected { kinds: [SyntaxKind::ERROR; 2], count: 0 };
        for number in [first, second].into_iter().filter(|number| *number != 0) {
            expected.kinds[expected.count] = SyntaxKind::of_table(number);
            expected.count += 1;
        }
        expected
    }
}

impl Deref for Expected {
    type Target = [SyntaxKind];

    fn deref(&self) -> &[SyntaxKind] {
        &self.kinds[..self.count]
    }
}

impl fmt::Debug for Expected {
    fn fmt(&self, f: &mut fmt::Formatter<'_>) -> fmt::Result {
        self.deref().fmt(f)
    }
}

/// What is wrong: the sorts of lang-pp's `ErrorKind`, but for the third, which is never raised.
#[derive(Debug, Clone, Copy, PartialEq, Eq, Hash)]
pub enum ErrorKind {
    /// No directive has this name.
    UnknownPreprocessorDirective {
        /// Where the name stands; its text may hold continuations.
        name: Span,
    },
    /// The directive of this name ended before these tokens.
    ExtraTokensInPreprocessorDirective {
        /// Where the name stands; its text may hold continuations.
        name: Span,
    },
    /// Another token was expected.
    Unexpected {
        /// The token's kind.
        actual: SyntaxKind,
        /// What was expected.
        expected: Expected,
    },
    /// The source ended where a token was expected.
    EndOfInput {
        /// What was expected.
        expected: Expected,
    },
}

impl ErrorKind {
    /// The number of the sort: 1, 2, 4 or 5.
    pub const fn sort(&self) -> u32 {
        match self {
            ErrorKind::UnknownPreprocessorDirective { .. } => 1,
            ErrorKind::ExtraTokensInPreprocessorDirective { .. } => 2,
            ErrorKind::Unexpected { .. } => 4,
            ErrorKind::EndOfInput { .. } => 5,
        }
    }
}

/// An error of a source.
///
/// ```
/// let src = b"#version 450\n#foo\n";
/// let reading = shader_reader::read(src).unwrap();
/// let error = reading.errors().next().unwrap();
/// assert_eq!(error.text(src), b"foo");
/// assert_eq!((error.line, error.column), (1, 1));
/// assert_eq!(error.message(src).to_string(), "unknown preprocessor directive `#foo`");
/// ```
#[derive(Debug, Clone, Copy, PartialEq, Eq, Hash)]
pub struct Error {
    /// What is wrong.
    pub kind: ErrorKind,
    /// The first byte that it covers.
    pub start: u32,
    /// The byte after the last; the error covers none at the end of the source.
    pub end: u32,
    /// The line of the first byte, from 0.
    pub line: u32,
    /// The column of the first byte, from 0, in bytes.
    pub column: u32,
}

impl Error {
    /// The bytes that it covers.
    pub const fn span(&self) -> Span {
        Span { start: self.start, end: self.end }
    }

    /// The bytes that it covers, as a range that indexes the source.
    pub const fn range(&self) -> Range<usize> {
        self.span().range()
    }

    /// The bytes that it covers in the source.
    ///
    /// # Panics
    /// If `src` is shorter than the source that was read.
    pub fn text<'s>(&self, src: &'s [u8]) -> &'s [u8] {
        self.span().text(src)
    }

    /// lang-pp's sentence, to be shown or turned into a string.
    ///
    /// # Panics
    /// The message panics when it is shown, if `src` is shorter than the source that was read.
    pub const fn message<'s>(&self, src: &'s [u8]) -> Message<'s> {
        Message { kind: self.kind, src }
    }

    /// The ten numbers that the table has: sort, start, end, line, column, actual kind, two expected kinds, start and
    /// end of the directive's name; absent ones are 0.
    pub fn numbers(&self) -> [u32; Error::NUMBERS] {
        let none = Expected::of_table(0, 0);
        let (actual, expected, name) = match self.kind {
            ErrorKind::UnknownPreprocessorDirective { name }
            | ErrorKind::ExtraTokensInPreprocessorDirective { name } => (0, none, name),
            ErrorKind::Unexpected { actual, expected } => (actual as u32, expected, Span { start: 0, end: 0 }),
            ErrorKind::EndOfInput { expected } => (0, expected, Span { start: 0, end: 0 }),
        };
        let kind = |place| expected.get(place).map_or(0, |kind: &SyntaxKind| *kind as u32);
        let sort = self.kind.sort();
        [sort, self.start, self.end, self.line, self.column, actual, kind(0), kind(1), name.start, name.end]
    }
}

impl Row for Error {
    const NUMBERS: usize = 10;

    fn from_numbers(numbers: &[u32]) -> Error {
        let &[sort, start, end, line, column, actual, first, second, name_start, name_end] = numbers else {
            unreachable!("an error has ten numbers")
        };
        let name = Span { start: name_start, end: name_end };
        let expected = Expected::of_table(first, second);
        let kind = match sort {
            1 => ErrorKind::UnknownPreprocessorDirective { name },
            2 => ErrorKind::ExtraTokensInPreprocessorDirective { name },
            4 => ErrorKind::Unexpected { actual: SyntaxKind::of_table(actual), expected },
            5 => ErrorKind::EndOfInput { expected },
            _ => crate::other_library("sort of error", sort),
        };
        Error { kind, start, end, line, column }
    }
}

/// An iterator over errors, in the order in which they were met.
pub type Errors<'a> = Rows<'a, Error>;

/// lang-pp's sentence for an error.
#[derive(Debug, Clone, Copy)]
pub struct Message<'s> {
    kind: ErrorKind,
    src: &'s [u8],
}

impl fmt::Display for Message<'_> {
    fn fmt(&self, f: &mut fmt::Formatter<'_>) -> fmt::Result {
        match &self.kind {
            ErrorKind::UnknownPreprocessorDirective { name } => {
                write!(f, "unknown preprocessor directive `#{}`", self.word(*name))
            }
            ErrorKind::ExtraTokensInPreprocessorDirective { name } => {
                write!(f, "'#{}' : extra tokens in preprocessor directive", self.word(*name))
            }
            ErrorKind::EndOfInput { expected } if expected.is_empty() => write!(f, "unexpected end of input"),
            ErrorKind::EndOfInput { expected } => write!(f, "unexpected end of input: {expected:?}"),
            ErrorKind::Unexpected { actual, expected } if expected.is_empty() => {
                write!(f, "unexpected {}", token_name(*actual))
            }
            ErrorKind::Unexpected { actual, expected } => {
                write!(f, "unexpected {}, expected {expected:?}", token_name(*actual))
            }
        }
    }
}

impl Message<'_> {
    /// A directive's name without continuations.
    fn word(&self, name: Span) -> String {
        let text = name.text(self.src);
        let unescaped = crate::unescape(text).unwrap_or_else(|_| text.to_vec());
        String::from_utf8_lossy(&unescaped).into_owned()
    }
}

/// The name that lang-pp's lexer gives a kind: ## is PP_CONCAT there, and PP_CONCAT_OP in a tree.
fn token_name(kind: SyntaxKind) -> &'static str {
    match kind {
        SyntaxKind::PP_CONCAT_OP => "PP_CONCAT",
        _ => kind.name(),
    }
}
