//! Colours of a terminal.

use std::env;
use std::fmt;

use crate::args::Color;

#[derive(Debug, Clone, Copy, PartialEq, Eq)]
pub enum Style {
    Place,
    Error,
    Note,
    Gutter,
    Node,
    Leaf,
    Range,
}

impl Style {
    /// The numbers of the escape sequence.
    fn code(self) -> &'static str {
        match self {
            Style::Place => "1",
            Style::Error => "1;31",
            Style::Note => "1;36",
            Style::Gutter => "34",
            Style::Node => "1;34",
            Style::Leaf => "36",
            Style::Range => "2",
        }
    }
}

/// Whether a stream gets colours.
#[derive(Debug, Clone, Copy, PartialEq, Eq)]
pub struct Paint(pub bool);

impl Paint {
    /// As asked for; otherwise on a terminal alone, unless NO_COLOR is set or the terminal is dumb.
    pub fn decide(color: Color, terminal: bool) -> Paint {
        let plain = env::var_os("NO_COLOR").is_some_and(|value| !value.is_empty()) || is_dumb();
        Paint(match color {
            Color::Always => true,
            Color::Never => false,
            Color::Auto => terminal && !plain,
        })
    }

    pub fn paint<T: fmt::Display>(self, style: Style, text: T) -> Painted<T> {
        Painted { style: self.0.then_some(style), text }
    }
}

/// A terminal without escape sequences.
pub fn is_dumb() -> bool {
    env::var_os("TERM").is_some_and(|term| term == "dumb")
}

/// A text with its colour, or without.
pub struct Painted<T> {
    style: Option<Style>,
    text: T,
}

impl<T: fmt::Display> fmt::Display for Painted<T> {
    fn fmt(&self, f: &mut fmt::Formatter<'_>) -> fmt::Result {
        match self.style {
            Some(style) => write!(f, "\x1b[{}m{}\x1b[0m", style.code(), self.text),
            None => self.text.fmt(f),
        }
    }
}

#[cfg(test)]
mod tests {
    use super::*;

    #[test]
    fn colours_where_asked_for() {
        assert_eq!(Paint::decide(Color::Always, false), Paint(true));
        assert_eq!(Paint::decide(Color::Never, true), Paint(false));
        assert_eq!(Paint::decide(Color::Auto, false), Paint(false));
        assert_eq!(Paint(true).paint(Style::Error, "a").to_string(), "\x1b[1;31ma\x1b[0m");
        assert_eq!(Paint(false).paint(Style::Error, "a").to_string(), "a");
    }
}
