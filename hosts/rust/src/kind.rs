//! The kinds of tokens, leaves and nodes.
use std::fmt;

macro_rules! kinds {
    ($($(#[$doc:meta])* $name:ident = $number:literal,)*) => {
        /// The kind of a token, a leaf or a node, with the name and number that lang-pp gives it.
        ///
        /// 1 to 58 are kinds of tokens, 59 to 86 of nodes; ERROR is both. LINECONT is a token's kind in
        /// [`tokens`](crate::tokens) alone: in a tree a continuation is a WS leaf.
        ///
        /// ```
        /// use shader_reader::SyntaxKind;
        ///
        /// assert_eq!(SyntaxKind::HASH as u32, 28);
        /// assert_eq!(SyntaxKind::from_u32(28), Some(SyntaxKind::HASH));
        /// assert_eq!(SyntaxKind::PP_DEFINE.to_string(), "PP_DEFINE");
        /// ```
        #[derive(Debug, Clone, Copy, PartialEq, Eq, PartialOrd, Ord, Hash)]
        #[allow(non_camel_case_types, clippy::upper_case_acronyms)]
        #[repr(u8)]
        pub enum SyntaxKind {
            $($(#[$doc])* $name = $number,)*
        }

        impl SyntaxKind {
            /// All kinds, by number from 1 on.
            pub const ALL: &'static [SyntaxKind] = &[$(SyntaxKind::$name,)*];

            /// The kind's name.
            pub const fn name(self) -> &'static str {
                match self {
                    $(SyntaxKind::$name => stringify!($name),)*
                }
            }
        }
    };
}

kinds! {
    /// Identifier or keyword
    IDENT_KW = 1,
    /// The word `defined`
    DEFINED = 2,
    /// Digit sequence
    DIGITS = 3,
    /// `.`
    PERIOD = 4,
    /// `+`
    PLUS = 5,
    /// `-`
    DASH = 6,
    /// `/`
    SLASH = 7,
    /// `*`
    ASTERISK = 8,
    /// `%`
    PERCENT = 9,
    /// `<`
    LANGLE = 10,
    /// `>`
    RANGLE = 11,
    /// `[`
    LBRACKET = 12,
    /// `]`
    RBRACKET = 13,
    /// `(`
    LPAREN = 14,
    /// `)`
    RPAREN = 15,
    /// `{`
    LBRACE = 16,
    /// `}`
    RBRACE = 17,
    /// `^`
    CARET = 18,
    /// `|`
    BAR = 19,
    /// `&`
    AMPERSAND = 20,
    /// `~`
    TILDE = 21,
    /// `=`
    EQUAL = 22,
    /// `!`
    BANG = 23,
    /// `:`
    COLON = 24,
    /// `;`
    SEMICOLON = 25,
    /// `,`
    COMMA = 26,
    /// `?`
    QUESTION = 27,
    /// `#`
    HASH = 28,
    /// `"string"`
    QUOTE_STRING = 29,
    /// `<string>`, behind `#include` alone
    ANGLE_STRING = 30,
    /// `\`
    BACKSLASH = 31,
    /// Blanks: tabs, vertical tabs, form feeds, spaces; in a tree a continuation too
    WS = 32,
    /// Newline
    NEWLINE = 33,
    /// Comment (single-line or multi-line)
    COMMENT = 34,
    /// Line continuation: of the token listing alone, a WS leaf in a tree
    LINECONT = 35,
    /// Invalid token; also the node around what an error covers
    ERROR = 36,
    /// `<<`
    LEFT_OP = 37,
    /// `>>`
    RIGHT_OP = 38,
    /// `++`
    INC_OP = 39,
    /// `--`
    DEC_OP = 40,
    /// `<=`
    LE_OP = 41,
    /// `>=`
    GE_OP = 42,
    /// `==`
    EQ_OP = 43,
    /// `!=`
    NE_OP = 44,
    /// `&&`
    AND_OP = 45,
    /// `||`
    OR_OP = 46,
    /// `^^`
    XOR_OP = 47,
    /// `*=`
    MUL_ASSIGN = 48,
    /// `/=`
    DIV_ASSIGN = 49,
    /// `+=`
    ADD_ASSIGN = 50,
    /// `%=`
    MOD_ASSIGN = 51,
    /// `<<=`
    LEFT_ASSIGN = 52,
    /// `>>=`
    RIGHT_ASSIGN = 53,
    /// `&=`
    AND_ASSIGN = 54,
    /// `^=`
    XOR_ASSIGN = 55,
    /// `|=`
    OR_ASSIGN = 56,
    /// `-=`
    SUB_ASSIGN = 57,
    /// `##`
    PP_CONCAT_OP = 58,
    /// Concatenation expression
    PP_CONCAT = 59,
    /// `#` alone on a line
    PP_EMPTY = 60,
    /// `#include`
    PP_INCLUDE = 61,
    /// Path of an `#include`
    PP_INCLUDE_PATH = 62,
    /// `#define`
    PP_DEFINE = 63,
    /// Arguments of a `#define`, with their parentheses
    PP_DEFINE_ARGS = 64,
    /// One argument of a `#define`
    PP_DEFINE_ARG = 65,
    /// Body of a `#define`
    PP_DEFINE_BODY = 66,
    /// `#undef`
    PP_UNDEF = 67,
    /// Identifier of `#undef`, `#ifdef` or `#ifndef`
    PP_IDENT = 68,
    /// `#if`
    PP_IF = 69,
    /// Expression of `#if` or `#elif`
    PP_IF_EXPR = 70,
    /// `#ifdef`
    PP_IFDEF = 71,
    /// `#ifndef`
    PP_IFNDEF = 72,
    /// `#else`
    PP_ELSE = 73,
    /// `#elif`
    PP_ELIF = 74,
    /// `#endif`
    PP_ENDIF = 75,
    /// `#error`
    PP_ERROR = 76,
    /// Body of an `#error`
    PP_ERROR_BODY = 77,
    /// `#pragma`
    PP_PRAGMA = 78,
    /// Body of a `#pragma`
    PP_PRAGMA_BODY = 79,
    /// `#extension`
    PP_EXTENSION = 80,
    /// `#version`
    PP_VERSION = 81,
    /// Number of a `#version`
    PP_VERSION_NUMBER = 82,
    /// Profile of a `#version`
    PP_VERSION_PROFILE = 83,
    /// `#line`
    PP_LINE = 84,
    /// Body of a `#line`
    PP_LINE_BODY = 85,
    /// The whole source
    ROOT = 86,
}

impl SyntaxKind {
    /// The kind of that number.
    pub fn from_u32(number: u32) -> Option<SyntaxKind> {
        let place = usize::try_from(number.checked_sub(1)?).ok()?;
        SyntaxKind::ALL.get(place).copied()
    }

    /// Blanks, comments and continuations.
    pub const fn is_trivia(self) -> bool {
        matches!(self, SyntaxKind::COMMENT | SyntaxKind::WS | SyntaxKind::LINECONT)
    }

    /// Trivia or NEWLINE.
    pub const fn is_whitespace(self) -> bool {
        self.is_trivia() || self.is_newline()
    }

    /// NEWLINE.
    pub const fn is_newline(self) -> bool {
        matches!(self, SyntaxKind::NEWLINE)
    }

    /// A kind that tokens have; ERROR is one, and may be a node's too.
    pub const fn is_token(self) -> bool {
        self as u8 <= SyntaxKind::PP_CONCAT_OP as u8
    }

    /// A kind that nodes have; ERROR is one, and may be a leaf's too.
    pub const fn is_node(self) -> bool {
        !self.is_token() || matches!(self, SyntaxKind::ERROR)
    }

    /// The kind of a whole directive. The node around an unknown directive is an ERROR, which is not counted here.
    pub const fn is_directive(self) -> bool {
        use SyntaxKind::*;
        matches!(
            self,
            PP_EMPTY
                | PP_INCLUDE
                | PP_DEFINE
                | PP_UNDEF
                | PP_IF
                | PP_IFDEF
                | PP_IFNDEF
                | PP_ELSE
                | PP_ELIF
                | PP_ENDIF
                | PP_ERROR
                | PP_PRAGMA
                | PP_EXTENSION
                | PP_VERSION
                | PP_LINE
        )
    }

    /// A kind of the library's, which knows no others.
    pub(crate) fn of_table(number: u32) -> SyntaxKind {
        SyntaxKind::from_u32(number).unwrap_or_else(|| crate::other_library("kind", number))
    }
}

impl fmt::Display for SyntaxKind {
    fn fmt(&self, f: &mut fmt::Formatter<'_>) -> fmt::Result {
        f.pad(self.name())
    }
}
