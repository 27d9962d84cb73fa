//! The tree: nodes that fold, leaves with their text.

use std::io::{self, Write};

use shader_reader::{Entry, View};

use super::{class, write_text};
use crate::text::{quoted, Piece};

/// A leaf's text is cut behind so many bytes; the source has it all.
const TEXT: usize = 60;

/// One element a level, since browsers take some 500 levels alone.
pub fn write(file: usize, bytes: &[u8], reading: &View, out: &mut dyn Write) -> io::Result<()> {
    writeln!(out, "<div class=\"tree\" tabindex=\"0\" role=\"region\" aria-label=\"Tree\">")?;
    let mut open = 0;
    for (place, entry) in reading.entries().enumerate() {
        close(&mut open, entry.level, out)?;
        if entry.is_node() {
            write_node(file, place, &entry, out)?;
            open += 1;
        } else {
            write_leaf(bytes, &entry, out)?;
        }
    }
    close(&mut open, 0, out)?;
    writeln!(out, "</div>")
}

fn close(open: &mut u32, level: u32, out: &mut dyn Write) -> io::Result<()> {
    while *open > level {
        writeln!(out, "</details>")?;
        *open -= 1;
    }
    Ok(())
}

fn write_node(file: usize, place: usize, entry: &Entry, out: &mut dyn Write) -> io::Result<()> {
    let Entry { kind, level, start, end, .. } = entry;
    // The source links to directives.
    let id = if *level == 1 { format!(" id=\"f{file}-{place}\"") } else { String::new() };
    writeln!(out, "<details open{id}><summary>{kind} <i>{start}..{end}</i></summary>")
}

fn write_leaf(bytes: &[u8], entry: &Entry, out: &mut dyn Write) -> io::Result<()> {
    let Entry { kind, start, end, .. } = entry;
    write!(out, "<div>{kind} <i>{start}..{end}</i> <code class=\"{}\">", class(*kind))?;
    let text = entry.text(bytes);
    let shown = beginning(text);
    write_text(quoted(shown).as_bytes(), out)?;
    let more = if shown.len() < text.len() { "..." } else { "" };
    writeln!(out, "</code>{more}</div>")
}

/// Whole characters of the first bytes.
fn beginning(text: &[u8]) -> &[u8] {
    let mut at = 0;
    while let Some(piece) = Piece::first(&text[at..]).filter(|_| at < TEXT) {
        at += piece.bytes();
    }
    &text[..at]
}
