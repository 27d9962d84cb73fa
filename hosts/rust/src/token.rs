//! Tokens, their texts, and pasting.
use std::ops::Range;

use crate::ffi;
use crate::kind::SyntaxKind;
use crate::refusal::Refusal;
use crate::rows::{Row, Rows, Span};
use crate::tables;

/// A token.
#[derive(Debug, Clone, Copy, PartialEq, Eq, Hash)]
pub struct Token {
    /// Its kind; a continuation is LINECONT.
    pub kind: SyntaxKind,
    /// Its first byte.
    pub start: u32,
    /// The byte after its last.
    pub end: u32,
}

impl Token {
    /// Its bytes.
    pub const fn span(&self) -> Span {
        Span { start: self.start, end: self.end }
    }

    /// Its bytes as a range that indexes the source.
    pub const fn range(&self) -> Range<usize> {
        self.span().range()
    }

    /// Its bytes in the source.
    ///
    /// # Panics
    /// If `src` is shorter than the source that was read.
    pub fn text<'s>(&self, src: &'s [u8]) -> &'s [u8] {
        self.span().text(src)
    }

    /// The three numbers that the table has: kind, start, end.
    pub const fn numbers(&self) -> [u32; Token::NUMBERS] {
        [self.kind as u32, self.start, self.end]
    }
}

impl Row for Token {
    const NUMBERS: usize = 3;

    fn from_numbers(numbers: &[u32]) -> Token {
        let &[kind, start, end] = numbers else { unreachable!("a token has three numbers") };
        Token { kind: SyntaxKind::of_table(kind), start, end }
    }
}

/// The tokens of a source, without a tree; angle strings are never expected. Refusals: [`Length`](Refusal::Length),
/// [`Utf8`](Refusal::Utf8), [`Cut`](Refusal::Cut).
///
/// ```
/// use shader_reader::{tokens, SyntaxKind};
///
/// let src = b"a <<= 1;";
/// let tokens = tokens(src).unwrap();
/// let kinds: Vec<_> = tokens.iter().map(|token| token.kind).filter(|kind| !kind.is_trivia()).collect();
/// assert_eq!(kinds, [SyntaxKind::IDENT_KW, SyntaxKind::LEFT_ASSIGN, SyntaxKind::DIGITS, SyntaxKind::SEMICOLON]);
/// assert_eq!(tokens[2].text(src), b"<<=");
/// ```
pub fn tokens(src: &[u8]) -> Result<Vec<Token>, Refusal> {
    let numbers = tables::grown(src.len(), tables::TOKENS, |tokens| {
        // SAFETY: the slices' pointers are valid for their lengths, and the table is borrowed alone.
        let answer = unsafe { ffi::shader_tokens(src.as_ptr(), src.len(), tokens.as_mut_ptr(), tokens.len()) };
        Refusal::check(answer.refusal).map(|()| answer.count as usize)
    })?;
    Ok(Rows::new(&numbers).collect())
}

/// A text without its continuations: each backslash with the one newline after it is dropped. Refusals:
/// [`Length`](Refusal::Length), [`Utf8`](Refusal::Utf8), [`Cut`](Refusal::Cut).
///
/// ```
/// assert_eq!(shader_reader::unescape(b"def\\\nine").unwrap(), b"define");
/// ```
pub fn unescape(text: &[u8]) -> Result<Vec<u8>, Refusal> {
    let mut output = tables::output(text.len());
    // SAFETY: the slices' pointers are valid for their lengths, and the output is a table of its own.
    let answer = unsafe { ffi::shader_unescape(text.as_ptr(), text.len(), output.as_mut_ptr(), output.len()) };
    Refusal::check(answer.refusal)?;
    output.truncate(answer.count as usize);
    Ok(output)
}

/// The kind of two leaves pasted by `##`; ERROR where they make no token. LINECONT, which no leaf has, is refused
/// ([`Kind`](Refusal::Kind)).
///
/// ```
/// use shader_reader::{paste, Refusal, SyntaxKind};
///
/// assert_eq!(paste(SyntaxKind::LANGLE, SyntaxKind::EQUAL), Ok(SyntaxKind::LE_OP));
/// assert_eq!(paste(SyntaxKind::LANGLE, SyntaxKind::RANGLE), Ok(SyntaxKind::ERROR));
/// assert_eq!(paste(SyntaxKind::LINECONT, SyntaxKind::WS), Err(Refusal::Kind));
/// ```
pub fn paste(lhs: SyntaxKind, rhs: SyntaxKind) -> Result<SyntaxKind, Refusal> {
    let answer = ffi::shader_paste(lhs as u32, rhs as u32);
    Refusal::check(answer.refusal)?;
    Ok(SyntaxKind::of_table(answer.kind))
}
