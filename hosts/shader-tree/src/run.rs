//! Reads all files, and writes what is asked for.

use std::fs;
use std::io::{self, BufWriter, IsTerminal, Write};
use std::os::fd::AsFd;

use shader_reader::{Refusal, Tables, View};

use crate::args::{File, Mode, Options};
use crate::diagnostics::{Message, Origin};
use crate::input::{reason, Source};
use crate::paint::{is_dumb, Paint};
use crate::progress::Progress;
use crate::{hints, html, listing, tokens, tree};

/// The exit status of a file; that of the run is the worst.
#[derive(Debug, Clone, Copy, PartialEq, Eq, PartialOrd, Ord)]
pub enum Status {
    Clean = 0,
    Errors = 1,
    Failed = 2,
}

/// The run, or the write that failed.
pub fn run(options: &Options) -> io::Result<Status> {
    let mut run = Run::new(options)?;
    let names: Vec<_> = options.files.iter().map(File::name).collect();
    let mut worst = Status::Clean;
    if run.mode == Mode::Html {
        html::begin(&names, &mut run.out)?;
    }
    for (number, file) in options.files.iter().enumerate() {
        run.progress.at(number, &names[number], &mut run.err)?;
        worst = worst.max(run.file(number, &names[number], file)?);
    }
    if run.mode == Mode::Html {
        html::end(&mut run.out)?;
    }
    run.progress.clear(&mut run.err)?;
    run.out.flush()?;
    run.err.flush()?;
    Ok(worst)
}

struct Run {
    mode: Mode,
    /// Whether names are written before trees and tokens.
    many: bool,
    /// Whether something was written already.
    begun: bool,
    out: BufWriter<fs::File>,
    err: BufWriter<fs::File>,
    out_paint: Paint,
    err_paint: Paint,
    err_terminal: bool,
    progress: Progress,
    tables: Tables,
}

/// A stream whose every failed write is seen.
fn stream(of: impl AsFd) -> io::Result<BufWriter<fs::File>> {
    Ok(BufWriter::with_capacity(1 << 16, fs::File::from(of.as_fd().try_clone_to_owned()?)))
}

impl Run {
    fn new(options: &Options) -> io::Result<Run> {
        let (out, err) = (io::stdout(), io::stderr());
        let mode = options.mode;
        // What is written on a terminal shows how far the run is.
        let quiet = mode == Mode::Check || !out.is_terminal();
        Ok(Run {
            mode,
            many: options.files.len() > 1,
            begun: false,
            out_paint: Paint::decide(options.color, out.is_terminal()),
            err_paint: Paint::decide(options.color, err.is_terminal()),
            err_terminal: err.is_terminal(),
            progress: Progress::new(options.files.len(), quiet && err.is_terminal() && !is_dumb()),
            out: stream(out)?,
            err: stream(err)?,
            tables: Tables::new(),
        })
    }

    fn file(&mut self, number: usize, name: &str, file: &File) -> io::Result<Status> {
        if *file == File::Stdin && io::stdin().is_terminal() && self.err_terminal {
            writeln!(self.err, "shader-tree: reading standard input, up to Ctrl-D")?;
            self.err.flush()?;
        }
        let source = match file.read() {
            Ok(source) => source,
            Err(error) => return self.unread(number, name, &reason(&error)),
        };
        if self.mode == Mode::Tokens {
            return self.tokens(name, &source);
        }
        let mut tables = std::mem::take(&mut self.tables);
        let status = match tables.read(&source.bytes) {
            Ok(reading) => self.reading(number, name, &source.bytes, reading),
            Err(refusal) => self.refused(number, name, &source, refusal, &mut tables),
        };
        self.tables = tables;
        status
    }

    fn reading(&mut self, number: usize, name: &str, bytes: &[u8], reading: View) -> io::Result<Status> {
        let note = hints::of_error_leaf(bytes, &reading);
        let origin = Origin { name, bytes, lines: reading.line_starts() };
        match self.mode {
            Mode::Tree => {
                self.heading(name)?;
                tree::write(bytes, &reading, self.out_paint, &mut self.out)?;
            }
            Mode::Html => html::write_reading(number, origin, &reading, note.as_ref(), &mut self.out)?,
            Mode::Check | Mode::Tokens => {}
            Mode::Listing => listing::write(Ok(&reading), &mut self.out)?,
        }
        let errors = reading.errors().map(|error| Message::of_error(&error, bytes));
        self.messages(origin, errors.chain(note))?;
        Ok(if reading.errors().len() > 0 { Status::Errors } else { Status::Clean })
    }

    fn tokens(&mut self, name: &str, source: &Source) -> io::Result<Status> {
        match shader_reader::tokens(&source.bytes) {
            Ok(found) => {
                self.heading(name)?;
                tokens::write(&source.bytes, &found, self.out_paint, &mut self.out)?;
                Ok(Status::Clean)
            }
            Err(refusal) => self.refused(0, name, source, refusal, &mut Tables::new()),
        }
    }

    fn refused(
        &mut self,
        number: usize,
        name: &str,
        source: &Source,
        refusal: Refusal,
        tables: &mut Tables,
    ) -> io::Result<Status> {
        let (message, lines) = hints::of_refusal(refusal, source, tables);
        let origin = Origin { name, bytes: &source.bytes, lines: &lines };
        match self.mode {
            Mode::Html => html::write_refused(number, origin, &message, &mut self.out)?,
            Mode::Listing => listing::write(Err(refusal), &mut self.out)?,
            Mode::Tree | Mode::Tokens | Mode::Check => {}
        }
        self.messages(origin, [message])?;
        Ok(Status::Errors)
    }

    fn unread(&mut self, number: usize, name: &str, reason: &str) -> io::Result<Status> {
        let words = format!("{name}: can't be read: {reason}");
        if self.mode == Mode::Html {
            html::write_unread(number, name, &words, &mut self.out)?;
        }
        self.before_messages()?;
        writeln!(self.err, "shader-tree: {words}")?;
        self.err.flush()?;
        Ok(Status::Failed)
    }

    /// The name of a file over its tree or its tokens, if there are several.
    fn heading(&mut self, name: &str) -> io::Result<()> {
        if self.many {
            let parted = if self.begun { "\n" } else { "" };
            writeln!(self.out, "{parted}==> {name} <==")?;
        }
        self.begun = true;
        Ok(())
    }

    fn messages(&mut self, origin: Origin, messages: impl IntoIterator<Item = Message>) -> io::Result<()> {
        let mut messages = messages.into_iter().peekable();
        if messages.peek().is_none() {
            return Ok(());
        }
        self.before_messages()?;
        for message in messages {
            origin.write(&message, self.err_paint, &mut self.err)?;
        }
        self.err.flush()
    }

    /// Messages come behind what was written of their file.
    fn before_messages(&mut self) -> io::Result<()> {
        self.progress.clear(&mut self.err)?;
        self.out.flush()
    }
}
