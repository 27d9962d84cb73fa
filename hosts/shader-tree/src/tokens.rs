//! The tokens: one a line.

use std::io::{self, Write};

use shader_reader::Token;

use crate::paint::{Paint, Style};
use crate::text::quoted;

pub fn write(bytes: &[u8], tokens: &[Token], paint: Paint, out: &mut dyn Write) -> io::Result<()> {
    for token in tokens {
        let kind = paint.paint(Style::Leaf, token.kind);
        let range = paint.paint(Style::Range, format!("@{}..{}", token.start, token.end));
        writeln!(out, "{kind}{range} {}", quoted(token.text(bytes)))?;
    }
    Ok(())
}
