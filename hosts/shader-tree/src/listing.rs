//! The listing: every number of an answer and its tables, fields parted by commas.

use std::io::{self, Write};

use shader_reader::{Refusal, View};

pub fn write(answer: Result<&View, Refusal>, out: &mut dyn Write) -> io::Result<()> {
    let reading = match answer {
        Ok(reading) => reading,
        Err(refusal) => return write_row("answer", &[refusal.number(), 0, 0, 0], out),
    };
    let counts =
        [reading.entries().len(), reading.errors().len(), reading.line_starts().len()].map(|count| count as u32);
    write_row("answer", &[0, counts[0], counts[1], counts[2]], out)?;
    for entry in reading.entries() {
        let word = if entry.is_node() { "node" } else { "leaf" };
        write_row(word, &entry.numbers()[1..], out)?;
    }
    for error in reading.errors() {
        write_row("error", &error.numbers(), out)?;
    }
    for &start in reading.line_starts() {
        write_row("line", &[start], out)?;
    }
    Ok(())
}

fn write_row(word: &str, numbers: &[u32], out: &mut dyn Write) -> io::Result<()> {
    write!(out, "{word}")?;
    for number in numbers {
        write!(out, ",{number}")?;
    }
    writeln!(out)
}
