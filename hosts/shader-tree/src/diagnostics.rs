//! Messages about a source: place, sentence, the line with a mark under the range, help.

use std::io::{self, Write};
use std::ops::Range;

use shader_reader::{Error, Place};

use crate::excerpt::excerpt;
use crate::paint::{Paint, Style};
use crate::text::{pieces, Piece};

/// A sentence is cut behind so many columns: a directive's name may be as long as the source.
const SENTENCE: usize = 200;
/// Columns for the number of a line.
const GUTTER: usize = 5;

#[derive(Debug, Clone, Copy, PartialEq, Eq)]
pub enum Level {
    Error,
    Note,
}

impl Level {
    pub fn word(self) -> &'static str {
        match self {
            Level::Error => "error",
            Level::Note => "note",
        }
    }

    fn style(self) -> Style {
        match self {
            Level::Error => Style::Error,
            Level::Note => Style::Note,
        }
    }
}

#[derive(Debug, Clone, PartialEq, Eq)]
pub struct Message {
    pub level: Level,
    /// The bytes that it is about; none if it is about the whole source.
    pub range: Option<Range<usize>>,
    pub sentence: String,
    pub help: Option<String>,
}

impl Message {
    /// An error of the reader, with its sentence.
    pub fn of_error(error: &Error, src: &[u8]) -> Message {
        let sentence = one_line(&error.message(src).to_string());
        Message { level: Level::Error, range: Some(error.range()), sentence, help: None }
    }
}

/// A sentence without controls, cut if it is long.
fn one_line(sentence: &str) -> String {
    let (mut out, mut columns) = (String::new(), 0);
    for piece in pieces(sentence.as_bytes()) {
        if columns >= SENTENCE {
            out.push_str("...");
            break;
        }
        piece.show(&mut out);
        columns += piece.columns();
    }
    out
}

/// A source with its name and the starts of its lines: as many as are needed to find the ranges of its messages.
#[derive(Clone, Copy)]
pub struct Origin<'a> {
    pub name: &'a str,
    pub bytes: &'a [u8],
    pub lines: &'a [u32],
}

impl Origin<'_> {
    pub fn place(&self, offset: usize) -> Place {
        Place::within(self.lines, offset as u32)
    }

    /// Where a range ends, if it goes on behind the line of its start: the place of its last character.
    pub fn last_line(&self, range: &Range<usize>) -> Option<Place> {
        let last = Piece::last(&self.bytes[range.clone()])?;
        let last = self.place(range.end - last.bytes());
        (last.line > self.place(range.start).line).then_some(last)
    }

    pub fn write(&self, message: &Message, paint: Paint, out: &mut dyn Write) -> io::Result<()> {
        let word = paint.paint(message.level.style(), format!("{}:", message.level.word()));
        let place = match message.range.as_ref().map(|range| self.place(range.start)) {
            Some(Place { line, column }) => format!("{}:{}:{}:", self.name, line + 1, column + 1),
            None => format!("{}:", self.name),
        };
        writeln!(out, "{} {word} {}", paint.paint(Style::Place, place), message.sentence)?;
        let mut gutter = GUTTER;
        if let Some(range) = &message.range {
            gutter = gutter.max(digits(self.place(range.start).line + 1));
            self.write_excerpt(message.level, range, gutter, paint, out)?;
        }
        if let Some(help) = &message.help {
            write_below("help", help, gutter, paint, out)?;
        }
        Ok(())
    }

    fn write_excerpt(
        &self,
        level: Level,
        range: &Range<usize>,
        gutter: usize,
        paint: Paint,
        out: &mut dyn Write,
    ) -> io::Result<()> {
        let line = self.place(range.start).line;
        let shown = excerpt(self.bytes, self.lines[line as usize] as usize, range.clone());
        let number = paint.paint(Style::Gutter, format!("{:gutter$} |", line + 1));
        writeln!(out, "{}", format!("{number} {}", shown.text).trim_end())?;
        let bar = paint.paint(Style::Gutter, format!("{:gutter$} |", ""));
        let mark = paint.paint(level.style(), "^".repeat(shown.width));
        writeln!(out, "{bar} {:blanks$}{mark}", "", blanks = shown.column)?;
        if let Some(Place { line, column }) = self.last_line(range) {
            let words = format!("up to line {}, column {}", line + 1, column + 1);
            write_below("note", &words, gutter, paint, out)?;
        }
        Ok(())
    }
}

/// Words below an excerpt.
fn write_below(sort: &str, words: &str, gutter: usize, paint: Paint, out: &mut dyn Write) -> io::Result<()> {
    let sign = paint.paint(Style::Gutter, format!("{:gutter$} =", ""));
    writeln!(out, "{sign} {sort}: {words}")
}

fn digits(number: u32) -> usize {
    number.to_string().len()
}
