//! Outputs that are stored beside the sources in tests/data. With SHADER_TREE_STORE=1 they are written anew.

mod common;

use std::env;
use std::fs;
use std::path::Path;

use common::{program, Ran};

const MODES: [&str; 4] = ["tree", "listing", "tokens", "html"];

/// Runs in the folder of the sources, so that messages have short names.
fn run(args: &[&str]) -> Ran {
    let output = program().args(args).current_dir(data()).output().expect("the program runs");
    Ran { out: output.stdout, err: String::from_utf8(output.stderr).unwrap(), code: output.status.code() }
}

fn data() -> &'static Path {
    Path::new(concat!(env!("CARGO_MANIFEST_DIR"), "/tests/data"))
}

fn holds(name: &str, found: &[u8]) {
    let path = data().join(name);
    if env::var_os("SHADER_TREE_STORE").is_some() {
        fs::write(&path, found).expect("an output can be stored");
    }
    let stored = fs::read(&path).expect("an output is stored");
    assert!(found == stored, "{name} differs:\n{}", String::from_utf8_lossy(found));
}

fn all_of(name: &str, code: i32) {
    let source = format!("{name}.frag");
    for mode in MODES {
        let ran = run(&[&format!("--{mode}"), &source]);
        holds(&format!("{name}.{mode}"), &ran.out);
        assert_eq!(ran.code, Some(if mode == "tokens" { 0 } else { code }), "{name} {mode}");
    }
    let ran = run(&["--check", &source]);
    assert!(ran.out.is_empty());
    assert_eq!(ran.code, Some(code));
    holds(&format!("{name}.check"), ran.err.as_bytes());
    assert_eq!(run(&[&source]).text(), run(&["--tree", &source]).text());
}

#[test]
fn three_lines() {
    all_of("three_lines", 0);
}

#[test]
fn directives() {
    all_of("directives", 0);
}

/// Vertical tabs around words and before #.
#[test]
fn old_editor() {
    all_of("old_editor", 0);
}

#[test]
fn errors() {
    all_of("errors", 1);
}

#[test]
fn several_files() {
    let files = ["three_lines.frag", "errors.frag", "missing.frag", "three_lines.frag"];
    for mode in ["tree", "html"] {
        let ran = run(&[&[format!("--{mode}").as_str()], &files[..]].concat());
        holds(&format!("several.{mode}"), &ran.out);
        assert_eq!(ran.code, Some(2));
    }
}

#[test]
fn colours() {
    let ran = run(&["--color=always", "errors.frag"]);
    holds("colours.tree", &ran.out);
    holds("colours.check", ran.err.as_bytes());
}
