//! The source: a line after another, leaves by their kinds, directives framed, errors marked under their bytes.

use std::io::{self, Write};
use std::ops::Range;
use std::vec;

use shader_reader::{Entry, Error, SyntaxKind, View};

use super::{class, write_text};
use crate::diagnostics::{Level, Message, Origin};
use crate::excerpt::Layout;

/// A mark behind so many bytes of a line says its column instead of standing under its bytes.
const ALIGNED: usize = 2000;

/// The newline stands within the line: between lines it would be one more.
const LINE_END: &[u8] = b"\n</span></span>";

pub fn write(
    file: usize,
    origin: Origin,
    reading: &View,
    note: Option<&Message>,
    out: &mut dyn Write,
) -> io::Result<()> {
    let mut pane = Pane::new(file, origin, reading, note, out);
    write!(pane.out, "<pre class=\"source\" tabindex=\"0\" aria-label=\"Source\">")?;
    let mut leaves = reading.leaves().peekable();
    for (number, line) in reading.lines().enumerate() {
        pane.begin_line(number)?;
        while let Some(leaf) = leaves.peek().copied().filter(|leaf| (leaf.start as usize) < line.end) {
            pane.write_part(&leaf, &line)?;
            if leaf.end as usize > line.end {
                break;
            }
            leaves.next();
        }
        pane.end_line()?;
        pane.write_marks(number, &line)?;
    }
    writeln!(pane.out, "</pre>")
}

/// A node under the ROOT: a directive, or an ERROR.
struct Directive {
    entry: Entry,
    /// Its place in the table.
    place: usize,
}

struct Pane<'a> {
    file: usize,
    origin: Origin<'a>,
    directives: vec::IntoIter<Directive>,
    /// The directive that was met last.
    directive: Option<Directive>,
    /// Whether its frame is open, and whether its name is still to be written.
    framed: bool,
    named: bool,
    /// The errors, by their start: those whose bytes are to be met, and those whose marks are to be written.
    errors: Vec<Error>,
    met: usize,
    marked: usize,
    /// Bytes before this one are covered by an error that was met.
    covered: u32,
    note: Option<&'a Message>,
    out: &'a mut dyn Write,
}

impl<'a> Pane<'a> {
    fn new(file: usize, origin: Origin<'a>, reading: &View, note: Option<&'a Message>, out: &'a mut dyn Write) -> Self {
        let entries = reading.entries().enumerate().filter(|(_, entry)| entry.is_node() && entry.level == 1);
        let directives: Vec<_> = entries.map(|(place, entry)| Directive { entry, place }).collect();
        let mut errors: Vec<_> = reading.errors().collect();
        errors.sort_by_key(|error| error.start);
        let mut directives = directives.into_iter();
        let directive = directives.next();
        Pane {
            file,
            origin,
            directives,
            directive,
            framed: false,
            named: false,
            errors,
            met: 0,
            marked: 0,
            covered: 0,
            note,
            out,
        }
    }

    fn begin_line(&mut self, number: usize) -> io::Result<()> {
        write!(self.out, "<span class=\"line\"><span class=\"no\">{:5} </span><span class=\"text\">", number + 1)
    }

    fn end_line(&mut self) -> io::Result<()> {
        self.end_frame()?;
        if let Some(directive) = self.directive.as_ref().filter(|_| self.named) {
            let Directive { entry, place } = directive;
            write!(self.out, " <a class=\"tag\" href=\"#f{}-{place}\">{}</a>", self.file, entry.kind)?;
            self.named = false;
        }
        self.out.write_all(LINE_END)
    }

    /// The part of a leaf that stands on a line.
    fn write_part(&mut self, leaf: &Entry, line: &Range<usize>) -> io::Result<()> {
        let part = line.start.max(leaf.start as usize)..line.end.min(leaf.end as usize);
        self.frame(leaf)?;
        while let Some(error) = self.errors.get(self.met).filter(|error| error.start <= leaf.start) {
            self.covered = self.covered.max(error.end);
            self.met += 1;
        }
        let wrong = leaf.start < self.covered;
        let text = match without_newline(&self.origin.bytes[part]) {
            [] if wrong && leaf.kind == SyntaxKind::NEWLINE => "⏎".as_bytes(),
            [] => return Ok(()),
            text => text,
        };
        let more = if wrong { " wrong" } else { "" };
        let Entry { kind, start, end, .. } = leaf;
        write!(self.out, "<span class=\"{}{more}\" title=\"{kind} {start}..{end}\">", class(*kind))?;
        write_text(text, self.out)?;
        write!(self.out, "</span>")
    }

    /// Opens the frame of the directive that a leaf belongs to.
    fn frame(&mut self, leaf: &Entry) -> io::Result<()> {
        while self.directive.as_ref().is_some_and(|directive| directive.entry.end <= leaf.start) {
            self.end_frame()?;
            self.directive = self.directives.next();
        }
        let Some(Directive { entry, .. }) = self.directive.as_ref().filter(|_| !self.framed) else { return Ok(()) };
        if entry.start <= leaf.start {
            let sort = if entry.kind == SyntaxKind::ERROR { "frame unknown" } else { "frame" };
            write!(self.out, "<span class=\"{sort}\" title=\"{} {}..{}\">", entry.kind, entry.start, entry.end)?;
            self.framed = true;
            self.named = entry.start == leaf.start;
        }
        Ok(())
    }

    fn end_frame(&mut self) -> io::Result<()> {
        if std::mem::take(&mut self.framed) {
            write!(self.out, "</span>")?;
        }
        Ok(())
    }

    /// The errors that start on a line, and the note.
    fn write_marks(&mut self, number: usize, line: &Range<usize>) -> io::Result<()> {
        while let Some(error) = self.errors.get(self.marked).copied().filter(|error| error.line as usize == number) {
            let first = self.marked == 0;
            self.marked += 1;
            self.write_mark(&Message::of_error(&error, self.origin.bytes), line, first)?;
        }
        let here = |note: &&Message| note.range.as_ref().is_some_and(|range| line.contains(&range.start));
        if let Some(note) = self.note.filter(here) {
            self.note = None;
            self.write_mark(note, line, false)?;
        }
        Ok(())
    }

    fn write_mark(&mut self, message: &Message, line: &Range<usize>, first: bool) -> io::Result<()> {
        let Some(range) = &message.range else { return Ok(()) };
        let id = if first { format!(" id=\"f{}-first\"", self.file) } else { String::new() };
        let sort = if message.level == Level::Error { "error" } else { "note" };
        write!(self.out, "<span class=\"line {sort}\"{id}><span class=\"no\">      </span><span class=\"text\">")?;
        let before = range.start - line.start;
        if before <= ALIGNED {
            let (column, width) = columns(self.origin.bytes, line, range);
            write!(self.out, "{:column$}{:^<width$} ", "", "")?;
        } else {
            write!(self.out, "column {}: ", before + 1)?;
        }
        write!(self.out, "<b>{}:</b> ", message.level.word())?;
        write_text(message.sentence.as_bytes(), self.out)?;
        if let Some(place) = self.origin.last_line(range) {
            write!(self.out, " (up to line {}, column {})", place.line + 1, place.column + 1)?;
        }
        if let Some(help) = &message.help {
            write!(self.out, " - ")?;
            write_text(help.as_bytes(), self.out)?;
        }
        self.out.write_all(LINE_END)
    }
}

/// Columns before a range on its line, and of it, as the page shows them.
fn columns(bytes: &[u8], line: &Range<usize>, range: &Range<usize>) -> (usize, usize) {
    let column = Layout::of(&bytes[line.start..range.start]).columns;
    let end = range.end.min(line.end).min(range.start + ALIGNED);
    let whole = Layout::of(without_newline(&bytes[line.start..end])).columns;
    (column, whole.saturating_sub(column).max(1))
}

/// What stands before the newline that ends a line.
fn without_newline(text: &[u8]) -> &[u8] {
    let end = text.iter().position(|byte| matches!(byte, b'\n' | b'\r')).unwrap_or(text.len());
    &text[..end]
}
