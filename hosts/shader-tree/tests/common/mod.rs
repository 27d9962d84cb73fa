//! Running the program, and files to run it on.
#![allow(dead_code)] // Each test program uses a part.

use std::ffi::OsStr;
use std::fs;
use std::io::Write;
use std::path::{Path, PathBuf};
use std::process::{Command, Stdio};
use std::thread;

/// What a run left.
#[derive(Debug)]
pub struct Ran {
    pub out: Vec<u8>,
    pub err: String,
    pub code: Option<i32>,
}

impl Ran {
    pub fn text(&self) -> &str {
        std::str::from_utf8(&self.out).expect("the output is UTF-8")
    }
}

/// The program with no colours asked for by the surroundings.
pub fn program() -> Command {
    let mut command = Command::new(env!("CARGO_BIN_EXE_shader-tree"));
    command.env_remove("NO_COLOR").env_remove("TERM").stdin(Stdio::null());
    command
}

/// Runs with standard input.
pub fn fed<S: AsRef<OsStr>>(args: &[S], input: &[u8]) -> Ran {
    let mut command = program();
    command.args(args).stdin(Stdio::piped()).stdout(Stdio::piped()).stderr(Stdio::piped());
    let mut child = command.spawn().expect("the program runs");
    let mut pipe = child.stdin.take().expect("standard input is a pipe");
    let input = input.to_vec();
    // A program that has read enough closes the pipe.
    let writer = thread::spawn(move || drop(pipe.write_all(&input)));
    let output = child.wait_with_output().expect("the program ends");
    writer.join().expect("the writer ends");
    let err = String::from_utf8(output.stderr).expect("messages are UTF-8");
    Ran { out: output.stdout, err, code: output.status.code() }
}

pub fn run<S: AsRef<OsStr>>(args: &[S]) -> Ran {
    fed(args, b"")
}

/// A folder that is removed at the end.
pub struct Folder(PathBuf);

impl Folder {
    pub fn new(name: &str) -> Folder {
        let path = Path::new(env!("CARGO_TARGET_TMPDIR")).join(name);
        let _ = fs::remove_dir_all(&path);
        fs::create_dir_all(&path).expect("a folder can be made");
        Folder(path)
    }

    pub fn path(&self) -> &Path {
        &self.0
    }

    /// A file in it.
    pub fn file(&self, name: impl AsRef<OsStr>, bytes: impl AsRef<[u8]>) -> PathBuf {
        let path = self.0.join(name.as_ref());
        fs::write(&path, bytes).expect("a file can be written");
        path
    }

    /// Runs in it, so that messages have short names.
    pub fn run<S: AsRef<OsStr>>(&self, args: &[S]) -> Ran {
        let output = program().args(args).current_dir(&self.0).output().expect("the program runs");
        let err = String::from_utf8(output.stderr).expect("messages are UTF-8");
        Ran { out: output.stdout, err, code: output.status.code() }
    }
}

impl Drop for Folder {
    fn drop(&mut self) {
        let _ = fs::remove_dir_all(&self.0);
    }
}
