//! Shows how the shader reader reads GLSL sources.

use std::env;
use std::io::{self, Write};
use std::process::ExitCode;

mod args;
mod diagnostics;
mod excerpt;
mod hints;
mod html;
mod input;
mod listing;
mod paint;
mod progress;
mod run;
mod text;
mod tokens;
mod tree;
mod width;

use args::Command;
use run::Status;

fn main() -> ExitCode {
    let done = match args::parse(env::args_os().skip(1)) {
        Ok(Command::Help) => print(include_str!("help.txt")),
        Ok(Command::Version) => print(concat!("shader-tree ", env!("CARGO_PKG_VERSION"), "\n")),
        Ok(Command::Run(options)) => run::run(&options),
        Err(words) => {
            complain(&format!("{words}\nTry 'shader-tree --help'."));
            Ok(Status::Failed)
        }
    };
    let status = done.unwrap_or_else(|error| {
        // A reader that has gone wants no more, and no complaint.
        if error.kind() != io::ErrorKind::BrokenPipe {
            complain(&format!("a write failed: {}", input::reason(&error)));
        }
        Status::Failed
    });
    ExitCode::from(status as u8)
}

fn print(text: &str) -> io::Result<Status> {
    let mut out = io::stdout();
    out.write_all(text.as_bytes())?;
    out.flush()?;
    Ok(Status::Clean)
}

/// Where standard error can't be written either, the exit status alone tells.
fn complain(words: &str) {
    let _ = writeln!(io::stderr(), "shader-tree: {words}");
}
