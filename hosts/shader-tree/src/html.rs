//! One page: for each file its source and its tree side by side. No scripts, nothing from elsewhere.

use std::io::{self, Write};

use shader_reader::{SyntaxKind, View};

use crate::diagnostics::{Message, Origin};
use crate::paint::Paint;
use crate::text::{grouped, pieces, Piece};
use crate::width::width;

mod nodes;
mod source;

/// No script runs and nothing is fetched, whatever a source holds.
const POLICY: &str = "default-src 'none'; style-src 'unsafe-inline'";

/// What the page begins with.
pub fn begin(names: &[String], out: &mut dyn Write) -> io::Result<()> {
    let title = match names {
        [name] => name.clone(),
        _ => format!("{} files", names.len()),
    };
    write!(out, "<!DOCTYPE html>\n<html lang=\"en\">\n<head>\n<meta charset=\"utf-8\">\n")?;
    writeln!(out, "<meta http-equiv=\"Content-Security-Policy\" content=\"{POLICY}\">")?;
    writeln!(out, "<meta name=\"viewport\" content=\"width=device-width, initial-scale=1\">")?;
    writeln!(out, "<meta name=\"color-scheme\" content=\"light dark\">")?;
    write!(out, "<title>")?;
    // A title holds no elements; names have no hidden characters.
    for piece in pieces(title.as_bytes()) {
        write_piece(piece, out)?;
    }
    writeln!(out, " - shader-tree</title>")?;
    write!(
        out,
        "<style>\n{}</style>\n</head>\n<body>\n{}",
        include_str!("html/style.css"),
        include_str!("html/legend.html")
    )?;
    if names.len() > 1 {
        write_contents(names, out)?;
    }
    Ok(())
}

fn write_contents(names: &[String], out: &mut dyn Write) -> io::Result<()> {
    writeln!(out, "<nav aria-label=\"Files\">\n<ol>")?;
    for (file, name) in names.iter().enumerate() {
        write!(out, "<li><a href=\"#f{file}\">")?;
        write_text(name.as_bytes(), out)?;
        writeln!(out, "</a></li>")?;
    }
    writeln!(out, "</ol>\n</nav>")
}

pub fn end(out: &mut dyn Write) -> io::Result<()> {
    write!(out, "</body>\n</html>\n")
}

/// The section of a file that was read.
pub fn write_reading(
    file: usize,
    origin: Origin,
    reading: &View,
    note: Option<&Message>,
    out: &mut dyn Write,
) -> io::Result<()> {
    begin_section(file, origin.name, out)?;
    write_counts(file, origin, reading, out)?;
    writeln!(out, "<div class=\"pair\">")?;
    source::write(file, origin, reading, note, out)?;
    nodes::write(file, origin.bytes, reading, out)?;
    write!(out, "</div>\n</section>\n")
}

/// The section of a file that was refused.
pub fn write_refused(file: usize, origin: Origin, message: &Message, out: &mut dyn Write) -> io::Result<()> {
    let mut words = Vec::new();
    origin.write(message, Paint(false), &mut words)?;
    write_words(file, origin.name, &words, out)
}

/// The section of a file that can't be read.
pub fn write_unread(file: usize, name: &str, words: &str, out: &mut dyn Write) -> io::Result<()> {
    write_words(file, name, words.as_bytes(), out)
}

fn write_words(file: usize, name: &str, words: &[u8], out: &mut dyn Write) -> io::Result<()> {
    begin_section(file, name, out)?;
    write!(out, "<pre class=\"refused\">")?;
    // The words are lines of their own.
    for line in words.split_inclusive(|&byte| byte == b'\n') {
        write_text(line.strip_suffix(b"\n").unwrap_or(line), out)?;
        writeln!(out)?;
    }
    write!(out, "</pre>\n</section>\n")
}

fn begin_section(file: usize, name: &str, out: &mut dyn Write) -> io::Result<()> {
    write!(out, "<section id=\"f{file}\">\n<h2>")?;
    write_text(name.as_bytes(), out)?;
    writeln!(out, "</h2>")
}

fn write_counts(file: usize, origin: Origin, reading: &View, out: &mut dyn Write) -> io::Result<()> {
    let bytes = counted(origin.bytes.len(), "byte", "bytes");
    let lines = counted(reading.line_starts().len(), "line", "lines");
    let leaves = counted(reading.leaves().count(), "leaf", "leaves");
    let errors = match reading.errors().len() {
        0 => "no errors".into(),
        count => format!("<a href=\"#f{file}-first\">{}</a>", counted(count, "error", "errors")),
    };
    writeln!(out, "<p>{bytes}, {lines}, {leaves}, {errors}</p>")
}

fn counted(count: usize, one: &str, many: &str) -> String {
    format!("{} {}", grouped(count as u64), if count == 1 { one } else { many })
}

/// The class of a leaf, by its kind.
fn class(kind: SyntaxKind) -> &'static str {
    use SyntaxKind::*;
    match kind {
        IDENT_KW | DEFINED => "word",
        DIGITS => "number",
        QUOTE_STRING | ANGLE_STRING => "string",
        COMMENT => "comment",
        HASH | PP_CONCAT_OP => "hash",
        WS | NEWLINE | LINECONT => "blank",
        ERROR => "bad",
        PERIOD | COMMA | COLON | SEMICOLON | QUESTION => "point",
        LBRACKET | RBRACKET | LPAREN | RPAREN | LBRACE | RBRACE => "point",
        _ => "op",
    }
}

/// Text of a page: what HTML takes for markup is escaped, and what can't be seen is shown by an escape. A wide
/// character stands in two columns, whatever its font says, so that marks stand under their bytes.
fn write_text(bytes: &[u8], out: &mut dyn Write) -> io::Result<()> {
    let mut wide = false;
    for piece in pieces(bytes) {
        // Marks that combine with a character stay with it.
        if wide && piece.columns() > 0 {
            write!(out, "</span>")?;
            wide = false;
        }
        if matches!(piece, Piece::Char(char) if width(char) == 2) {
            write!(out, "<span class=\"wide\">")?;
            wide = true;
        }
        write_piece(piece, out)?;
    }
    if wide {
        write!(out, "</span>")?;
    }
    Ok(())
}

fn write_piece(piece: Piece, out: &mut dyn Write) -> io::Result<()> {
    match piece {
        Piece::Char('&') => write!(out, "&amp;"),
        Piece::Char('<') => write!(out, "&lt;"),
        Piece::Char('>') => write!(out, "&gt;"),
        Piece::Char('"') => write!(out, "&quot;"),
        Piece::Char('\'') => write!(out, "&#39;"),
        Piece::Char('\t') => write!(out, "\t"),
        Piece::Char(char) if !piece.is_hidden() => write!(out, "{char}"),
        _ => {
            let mut escape = String::new();
            piece.show(&mut escape);
            write!(out, "<span class=\"hidden\">{escape}</span>")
        }
    }
}
