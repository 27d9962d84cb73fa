//! Streams that fail.

mod common;

use std::fs::{self, File};
use std::process::{Command, Stdio};

use common::{program, Folder};

fn full() -> File {
    File::options().write(true).open("/dev/full").expect("/dev/full is there")
}

/// Standard error and the status of a run whose standard output is full.
fn into_full(command: &mut Command) -> (String, Option<i32>) {
    let output = command.stdout(full()).stderr(Stdio::piped()).output().expect("the program runs");
    (String::from_utf8(output.stderr).unwrap(), output.status.code())
}

#[test]
fn a_full_device() {
    let folder = Folder::new("full");
    folder.file("a", "#version 450\n");
    folder.file("wrong", "#a\n");
    let words = "shader-tree: a write failed: No space left on device\n";
    for mode in ["--tree", "--listing", "--tokens", "--html"] {
        let found = into_full(program().args([mode, "a"]).current_dir(folder.path()));
        assert_eq!(found, (words.into(), Some(2)), "{mode}");
    }
    for option in ["--help", "--version"] {
        assert_eq!(into_full(program().arg(option)), (words.into(), Some(2)), "{option}");
    }
    // --check writes nothing there.
    assert_eq!(into_full(program().args(["--check", "a"]).current_dir(folder.path())), (String::new(), Some(0)));
}

#[test]
fn messages_that_cannot_be_written() {
    let folder = Folder::new("full-messages");
    folder.file("wrong", "#a\n");
    let status =
        |args: &[&str]| program().args(args).current_dir(folder.path()).stderr(full()).status().unwrap().code();
    assert_eq!(status(&["--check", "wrong"]), Some(2));
    assert_eq!(status(&["--check", "missing"]), Some(2));
    assert_eq!(status(&["--nonsense"]), Some(2));
}

#[test]
fn a_pipe_that_closes_ends_the_run_quietly() {
    let folder = Folder::new("closes");
    folder.file("long", "a ".repeat(200_000));
    for mode in ["--tree", "--listing", "--tokens", "--html"] {
        let mut command = program();
        command.args([mode, "long"]).current_dir(folder.path()).stdout(Stdio::piped()).stderr(Stdio::piped());
        let mut child = command.spawn().unwrap();
        drop(child.stdout.take());
        let output = child.wait_with_output().unwrap();
        assert_eq!(output.status.code(), Some(2), "{mode}");
        assert!(output.stderr.is_empty(), "{mode}: {}", String::from_utf8_lossy(&output.stderr));
    }
}

#[test]
fn what_is_written_to_a_file_is_whole() {
    let folder = Folder::new("whole");
    folder.file("long", "a ".repeat(50_000));
    let path = folder.path().join("out");
    let mut command = program();
    command.args(["--listing", "long"]).current_dir(folder.path()).stdout(File::create(&path).unwrap());
    assert_eq!(command.status().unwrap().code(), Some(0));
    let text = fs::read_to_string(path).unwrap();
    assert_eq!(text.lines().count(), 1 + 1 + 100_000 + 1);
    assert!(text.ends_with("line,0\n"));
}
