//! The tree: an entry a line, indented by its level.

use std::io::{self, Write};

use shader_reader::{Entry, View};

use crate::paint::{Paint, Style};
use crate::text::quoted;

pub fn write(bytes: &[u8], reading: &View, paint: Paint, out: &mut dyn Write) -> io::Result<()> {
    for entry in reading.entries() {
        write_entry(bytes, &entry, paint, out)?;
    }
    Ok(())
}

fn write_entry(bytes: &[u8], entry: &Entry, paint: Paint, out: &mut dyn Write) -> io::Result<()> {
    let style = if entry.is_node() { Style::Node } else { Style::Leaf };
    let kind = paint.paint(style, entry.kind);
    let range = paint.paint(Style::Range, format_args!("@{}..{}", entry.start, entry.end)).to_string();
    write!(out, "{:blanks$}{kind}{range}", "", blanks = 2 * entry.level as usize)?;
    if entry.is_leaf() {
        write!(out, " {}", quoted(entry.text(bytes)))?;
    }
    writeln!(out)
}
