//! Colours and progress, on a terminal that the program `script` makes; without it nothing is tried.

mod common;

use std::process::{Command, Stdio};

use common::Folder;

/// What a shell command writes on a terminal, without standard input.
fn on_terminal(folder: &Folder, command: &str, variables: &[(&str, &str)]) -> Option<String> {
    let mut script = Command::new("script");
    script.args(["-qec", command, "/dev/null"]).current_dir(folder.path()).stdin(Stdio::null());
    script.env_remove("NO_COLOR").env("TERM", "xterm").envs(variables.iter().copied());
    script.env("P", env!("CARGO_BIN_EXE_shader-tree"));
    let output = script.output().ok()?;
    Some(String::from_utf8_lossy(&output.stdout).into())
}

#[test]
fn colours_on_a_terminal_alone() {
    let folder = Folder::new("colours");
    folder.file("a", "#a\n");
    let Some(both) = on_terminal(&folder, "\"$P\" a", &[]) else { return };
    assert!(both.contains("\x1b[1;34mROOT\x1b[0m") && both.contains("\x1b[1;31merror:\x1b[0m"), "{both:?}");
    let piped = on_terminal(&folder, "\"$P\" a 2>/dev/null | cat", &[]).unwrap();
    assert!(piped.contains("ROOT@0..3") && !piped.contains('\x1b'), "{piped:?}");
    for plain in [("NO_COLOR", "1"), ("TERM", "dumb")] {
        let plain = on_terminal(&folder, "\"$P\" a", &[plain]).unwrap();
        assert!(plain.contains("ROOT@0..3") && !plain.contains('\x1b'), "{plain:?}");
    }
    let asked = on_terminal(&folder, "\"$P\" --color=always a", &[("NO_COLOR", "1")]).unwrap();
    assert!(asked.contains("\x1b[1;34mROOT"), "{asked:?}");
}

#[test]
fn progress_over_many_files() {
    let folder = Folder::new("progress");
    let mut long = vec![b' '; 16_777_216];
    long[..2].copy_from_slice(b"//");
    folder.file("long", long);
    let files = " long".repeat(20);
    let Some(found) = on_terminal(&folder, &format!("\"$P\" --check{files}"), &[]) else { return };
    assert!(found.contains(" of 20: long"), "{found:?}");
    assert!(found.ends_with("\r\x1b[K"), "{found:?}");
    let piped = on_terminal(&folder, &format!("\"$P\" --check{files} 2>&1 | cat"), &[]).unwrap();
    assert_eq!(piped, "");
}
