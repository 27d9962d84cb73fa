//! Files of all sorts, and the exit status.

mod common;

use std::ffi::OsStr;
use std::fs::{self, File};
use std::io::{Seek, SeekFrom, Write};
use std::os::unix::ffi::OsStrExt;
use std::os::unix::fs::PermissionsExt;
use std::process::Command;
use std::thread;

use common::{fed, program, run, Folder};

const LIMIT: usize = 16_777_216;

/// A source of one comment.
fn comment(bytes: usize) -> Vec<u8> {
    let mut source = vec![b' '; bytes];
    source[..2].copy_from_slice(b"//");
    source
}

#[test]
fn clean_errors_and_refusals() {
    assert_eq!(fed(&["--check"], b"void main() {}\n").code, Some(0));
    assert_eq!(fed(&["--check"], b"#a\n").code, Some(1));
    assert_eq!(fed(&["--check"], b"\xff").code, Some(1));
    assert_eq!(fed(&["--check"], b"a\xc3").code, Some(1));
}

#[test]
fn wrong_usage() {
    for (args, words) in [
        (&["--nonsense"][..], "shader-tree: there is no option '--nonsense'"),
        (&["--html", "--check"], "shader-tree: --html and --check can't be given together"),
        (&["--color=red"], "shader-tree: 'red' is no value of --color"),
    ] {
        let ran = run(args);
        assert_eq!(ran.code, Some(2));
        assert!(ran.err.starts_with(words), "{}", ran.err);
        assert!(ran.err.ends_with("Try 'shader-tree --help'.\n"));
        assert!(ran.out.is_empty());
    }
}

#[test]
fn help_and_version() {
    let help = run(&["--help"]);
    assert_eq!(help.code, Some(0));
    assert!(help.text().contains("columns count bytes"));
    assert!(help.text().lines().all(|line| line.len() <= 80));
    assert_eq!(run(&["--version"]).text(), "shader-tree 0.3.0\n");
}

#[test]
fn files_that_cannot_be_read() {
    let folder = Folder::new("unread");
    for (name, reason) in
        [("missing", "No such file or directory"), (".", "Is a directory"), ("", "No such file or directory")]
    {
        let ran = folder.run(&["--tree", name]);
        let shown = if name.is_empty() { "''" } else { name };
        assert_eq!(ran.err, format!("shader-tree: {shown}: can't be read: {reason}\n"));
        assert_eq!(ran.code, Some(2));
    }
    // A file that is opened and then fails.
    let ran = run(&["/proc/self/mem"]);
    assert_eq!(
        (ran.err.as_str(), ran.code),
        ("shader-tree: /proc/self/mem: can't be read: Input/output error\n", Some(2))
    );
}

#[test]
fn files_without_permission() {
    let folder = Folder::new("permission");
    let path = folder.file("secret.frag", "#a\n");
    fs::set_permissions(&path, fs::Permissions::from_mode(0o000)).unwrap();
    // The superuser reads it all the same.
    if File::open(&path).is_err() {
        let ran = folder.run(&["secret.frag"]);
        assert_eq!(ran.err, "shader-tree: secret.frag: can't be read: Permission denied\n");
        assert_eq!(ran.code, Some(2));
    }
}

#[test]
fn all_files_are_read_and_the_worst_counts() {
    let folder = Folder::new("worst");
    folder.file("clean", "a\n");
    folder.file("wrong", "#a\n");
    let worst = |names: &[&str]| folder.run(&[&["--check"], names].concat());
    assert_eq!(worst(&["clean", "clean"]).code, Some(0));
    assert_eq!(worst(&["clean", "wrong", "clean"]).code, Some(1));
    let ran = worst(&["missing", "wrong", "clean"]);
    assert_eq!(ran.code, Some(2));
    assert_eq!(ran.err.lines().count(), 4);
    assert_eq!(worst(&["wrong", "missing", "clean"]).code, Some(2));
}

#[test]
fn several_files_have_headings_in_trees_and_tokens_alone() {
    let folder = Folder::new("headings");
    folder.file("a", "x");
    folder.file("b", "");
    let out = |mode: &str| folder.run(&[mode, "a", "b"]).text().to_string();
    assert_eq!(out("--tree"), "==> a <==\nROOT@0..1\n  IDENT_KW@0..1 \"x\"\n\n==> b <==\nROOT@0..0\n");
    assert_eq!(out("--tokens"), "==> a <==\nIDENT_KW@0..1 \"x\"\n\n==> b <==\n");
    assert_eq!(
        out("--listing"),
        "answer,0,2,0,1\nnode,86,0,0,1\nleaf,1,1,0,1\nline,0\nanswer,0,1,0,1\nnode,86,0,0,0\nline,0\n"
    );
    assert_eq!(out("--check"), "");
}

#[test]
fn names_with_blanks_newlines_and_stray_bytes() {
    let folder = Folder::new("names");
    for (name, shown) in
        [(&b"a b.frag"[..], "a b.frag"), (b"a\nb", "a\\nb"), (b"\xff\x1b[1m", "\\xff\\x1b[1m"), (b"-x", "-x")]
    {
        folder.file(OsStr::from_bytes(name), "#a\n");
        let ran = folder.run(&[OsStr::new("--check"), OsStr::new("--"), OsStr::from_bytes(name)]);
        assert_eq!(ran.err.lines().next(), Some(&*format!("{shown}:1:2: error: unknown preprocessor directive `#a`")));
    }
}

#[test]
fn the_limit_and_one_more() {
    let folder = Folder::new("limit");
    folder.file("most", comment(LIMIT));
    folder.file("more", comment(LIMIT + 1));
    let ran = folder.run(&["--listing", "most"]);
    assert_eq!(ran.text(), format!("answer,0,2,0,1\nnode,86,0,0,{LIMIT}\nleaf,34,1,0,{LIMIT}\nline,0\n"));
    assert_eq!(ran.code, Some(0));
    let ran = folder.run(&["--listing", "more"]);
    assert_eq!((ran.text(), ran.code), ("answer,1,0,0,0\n", Some(1)));
    let words =
        "more: error: the source has 16,777,217 bytes: at most 16,777,216 are read\n      = help: read it in parts\n";
    assert_eq!(ran.err, words);
    let ran = fed(&["--check"], &comment(LIMIT + 1));
    assert!(ran.err.starts_with("<stdin>: error: the source has more than 16,777,216 bytes"), "{}", ran.err);
    assert_eq!(ran.code, Some(1));
}

#[test]
fn very_long_files_are_not_read_whole() {
    let folder = Folder::new("sparse");
    let mut file = File::create(folder.path().join("sparse")).unwrap();
    // A hole of a terabyte takes no room.
    file.seek(SeekFrom::Start(1 << 40)).unwrap();
    file.write_all(b"a").unwrap();
    drop(file);
    let ran = folder.run(&["sparse"]);
    assert!(ran.err.starts_with("sparse: error: the source has 1,099,511,627,777 bytes"), "{}", ran.err);
    assert!(run(&["/dev/zero"]).err.starts_with("/dev/zero: error: the source has more than 16,777,216 bytes"));
}

#[test]
fn standard_input_pipes_and_devices() {
    assert_eq!(fed(&["--tokens"], b"a").text(), "IDENT_KW@0..1 \"a\"\n");
    assert_eq!(fed(&["--tokens", "-"], b"a").text(), "IDENT_KW@0..1 \"a\"\n");
    assert_eq!(run(&["/dev/null"]).text(), "ROOT@0..0\n");
    assert_eq!(fed(&["--check", "/dev/stdin"], b"#a").err.lines().count(), 3);
    assert!(fed(&["--check", "-"], b"#a").err.starts_with("<stdin>:1:2: error:"));
    let ran = fed(&["--tree", "/dev/null", "-"], b"a");
    assert_eq!(ran.text(), "==> /dev/null <==\nROOT@0..0\n\n==> <stdin> <==\nROOT@0..1\n  IDENT_KW@0..1 \"a\"\n");
}

#[test]
fn fifos() {
    let folder = Folder::new("fifo");
    let path = folder.path().join("pipe");
    assert!(Command::new("mkfifo").arg(&path).status().expect("mkfifo runs").success());
    let writer = thread::spawn({
        let path = path.clone();
        move || {
            let mut pipe = File::options().write(true).open(path).unwrap();
            // More than a pipe holds.
            for _ in 0..1000 {
                pipe.write_all(&[b'a'; 997]).unwrap();
            }
        }
    });
    let output = program().arg("--tokens").arg(&path).output().unwrap();
    writer.join().unwrap();
    assert!(output.stdout.starts_with(b"IDENT_KW@0..997000 "));
    assert_eq!(output.status.code(), Some(0));
}

#[test]
fn empty_and_odd_sources() {
    assert_eq!(fed(&["--tree"], b"").text(), "ROOT@0..0\n");
    assert_eq!(fed(&["--tokens"], b"").text(), "");
    assert_eq!(fed(&["--listing"], b"").text(), "answer,0,1,0,1\nnode,86,0,0,0\nline,0\n");
    assert_eq!(fed(&["--tree"], b"#").text(), "ROOT@0..1\n  ERROR@0..1\n    HASH@0..1 \"#\"\n");
    let ran = fed(&["--tokens"], b"\0\x0b\x1b\x7f\\\n\xc2\x80");
    let kinds: Vec<_> = ran.text().lines().collect();
    assert_eq!(kinds[..2], ["ERROR@0..1 \"\\x00\"", "WS@1..2 \"\\x0b\""]);
    assert_eq!(kinds[4..], ["LINECONT@4..6 \"\\\\\\n\"", "ERROR@6..8 \"\\u{80}\""]);
    assert_eq!(ran.code, Some(0));
}
