//! Which file is read, on a terminal.

use std::io::{self, Write};
use std::time::{Duration, Instant};

use crate::text::Piece;
use crate::width::width;

/// Nothing is shown before so long, nor more often.
const STEP: Duration = Duration::from_millis(200);
/// Columns for a name, whose end is kept.
const NAME: usize = 50;

pub struct Progress {
    files: usize,
    /// When the line was last written, or when reading began; none where no progress is shown.
    last: Option<Instant>,
    shown: bool,
}

impl Progress {
    /// For many files on a terminal.
    pub fn new(files: usize, terminal: bool) -> Progress {
        Progress { files, last: (terminal && files > 1).then(Instant::now), shown: false }
    }

    /// The file of that number, from 0, is read now.
    pub fn at(&mut self, file: usize, name: &str, out: &mut dyn Write) -> io::Result<()> {
        if self.last.is_some_and(|last| last.elapsed() >= STEP) {
            self.last = Some(Instant::now());
            self.shown = true;
            write!(out, "\r\x1b[K{}", line(file + 1, self.files, name))?;
            out.flush()?;
        }
        Ok(())
    }

    /// Takes the line away, so that other text can be written.
    pub fn clear(&mut self, out: &mut dyn Write) -> io::Result<()> {
        if std::mem::take(&mut self.shown) {
            write!(out, "\r\x1b[K")?;
        }
        Ok(())
    }
}

fn line(file: usize, files: usize, name: &str) -> String {
    format!("{file} of {files}: {}", end_of(name))
}

/// The last columns of a name.
fn end_of(name: &str) -> &str {
    let mut columns = NAME;
    let mut from = name.len();
    while let Some(Piece::Char(char)) = Piece::last(&name.as_bytes()[..from]) {
        if width(char) > columns {
            break;
        }
        columns -= width(char);
        from -= char.len_utf8();
    }
    &name[from..]
}

#[cfg(test)]
mod tests {
    use super::*;
    use crate::text::pieces;

    #[test]
    fn long_names_keep_their_end() {
        let name = format!("{}/shader.frag", "d".repeat(80));
        assert_eq!(end_of(&name).len(), NAME);
        assert!(line(3, 10, &name).ends_with("/shader.frag"));
        assert_eq!(line(1, 2, "a"), "1 of 2: a");
        assert_eq!(pieces(end_of(&"中".repeat(80)).as_bytes()).count(), NAME / 2);
    }

    #[test]
    fn nothing_without_a_terminal() {
        let mut out = Vec::new();
        for mut progress in [Progress::new(9, false), Progress::new(1, true), Progress::new(9, true)] {
            progress.at(0, "a", &mut out).unwrap();
            progress.clear(&mut out).unwrap();
        }
        assert!(out.is_empty());
    }

    #[test]
    fn shown_and_cleared() {
        let mut out = Vec::new();
        let mut progress = Progress::new(2, true);
        progress.last = Instant::now().checked_sub(STEP);
        progress.at(1, "b.frag", &mut out).unwrap();
        progress.clear(&mut out).unwrap();
        assert_eq!(out, b"\r\x1b[K2 of 2: b.frag\r\x1b[K");
    }
}
