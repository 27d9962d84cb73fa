//! The command line.

use std::ffi::{OsStr, OsString};

use crate::text::escaped_name;

/// What is written on standard output.
#[derive(Debug, Clone, Copy, PartialEq, Eq)]
pub enum Mode {
    Tree,
    Listing,
    Tokens,
    Check,
    Html,
}

/// When colours are used.
#[derive(Debug, Clone, Copy, PartialEq, Eq)]
pub enum Color {
    Auto,
    Always,
    Never,
}

/// A file of the command line.
#[derive(Debug, Clone, PartialEq, Eq)]
pub enum File {
    Stdin,
    Path(OsString),
}

#[derive(Debug, PartialEq, Eq)]
pub struct Options {
    pub mode: Mode,
    pub color: Color,
    pub files: Vec<File>,
}

#[derive(Debug, PartialEq, Eq)]
pub enum Command {
    Help,
    Version,
    Run(Options),
}

const MODES: [(&str, Mode); 5] = [
    ("--tree", Mode::Tree),
    ("--listing", Mode::Listing),
    ("--tokens", Mode::Tokens),
    ("--check", Mode::Check),
    ("--html", Mode::Html),
];

/// The options given so far.
#[derive(Default)]
struct Given {
    mode: Option<(&'static str, Mode)>,
    color: Option<Color>,
    files: Vec<File>,
}

/// The command, or what is wrong with the arguments.
pub fn parse(args: impl IntoIterator<Item = OsString>) -> Result<Command, String> {
    let mut given = Given::default();
    let mut args = args.into_iter();
    while let Some(arg) = args.next() {
        match arg.to_str() {
            Some("--") => {
                for file in args.by_ref() {
                    given.file(file)?;
                }
            }
            Some("-h" | "--help") => return Ok(Command::Help),
            Some("-V" | "--version") => return Ok(Command::Version),
            _ if is_option(&arg) => given.option(&arg)?,
            _ => given.file(arg)?,
        }
    }
    Ok(Command::Run(given.options()))
}

/// A lone `-` is standard input, and no option.
fn is_option(arg: &OsStr) -> bool {
    let bytes = arg.as_encoded_bytes();
    bytes.len() > 1 && bytes[0] == b'-'
}

impl Given {
    fn option(&mut self, arg: &OsStr) -> Result<(), String> {
        if let Some(&found) = MODES.iter().find(|(name, _)| arg == OsStr::new(name)) {
            return self.mode(found);
        }
        match arg.to_str().and_then(|arg| arg.strip_prefix("--color")) {
            Some("=auto") => self.color = Some(Color::Auto),
            Some("=always") => self.color = Some(Color::Always),
            Some("=never") => self.color = Some(Color::Never),
            Some("") => return Err("--color needs a value: --color=always, --color=never or --color=auto".into()),
            Some(value) if value.starts_with('=') => {
                let value = escaped_name(OsStr::new(&value[1..]));
                return Err(format!("'{value}' is no value of --color: it takes always, never or auto"));
            }
            _ => {
                let option = escaped_name(arg);
                return Err(format!("there is no option '{option}' (a file of that name: ./{option})"));
            }
        }
        Ok(())
    }

    fn mode(&mut self, found: (&'static str, Mode)) -> Result<(), String> {
        match self.mode {
            Some(before) if before != found => Err(format!("{} and {} can't be given together", before.0, found.0)),
            _ => {
                self.mode = Some(found);
                Ok(())
            }
        }
    }

    fn file(&mut self, arg: OsString) -> Result<(), String> {
        let file = if arg == "-" { File::Stdin } else { File::Path(arg) };
        if file == File::Stdin && self.files.contains(&file) {
            return Err("'-' is given twice: standard input can be read only once".into());
        }
        self.files.push(file);
        Ok(())
    }

    fn options(self) -> Options {
        let files = if self.files.is_empty() { vec![File::Stdin] } else { self.files };
        let mode = self.mode.map_or(Mode::Tree, |(_, mode)| mode);
        Options { mode, color: self.color.unwrap_or(Color::Auto), files }
    }
}

#[cfg(test)]
mod tests {
    use super::*;

    fn parsed(args: &[&str]) -> Result<Command, String> {
        parse(args.iter().map(OsString::from))
    }

    fn options(args: &[&str]) -> Options {
        match parsed(args) {
            Ok(Command::Run(options)) => options,
            other => panic!("{other:?}"),
        }
    }

    fn path(name: &str) -> File {
        File::Path(name.into())
    }

    #[test]
    fn nothing_given() {
        assert_eq!(options(&[]), Options { mode: Mode::Tree, color: Color::Auto, files: vec![File::Stdin] });
    }

    #[test]
    fn modes_and_colors() {
        for (name, mode) in MODES {
            assert_eq!(options(&[name, "a"]).mode, mode);
            assert_eq!(options(&["a", name, name]).mode, mode);
        }
        assert_eq!(options(&["--color=always"]).color, Color::Always);
        assert_eq!(options(&["--color=always", "--color=never"]).color, Color::Never);
    }

    #[test]
    fn files() {
        assert_eq!(
            options(&["a", "-", "--", "--html", "--"]).files,
            [path("a"), File::Stdin, path("--html"), path("--")]
        );
        assert_eq!(options(&["--"]).files, [File::Stdin]);
    }

    #[test]
    fn help_and_version_come_first() {
        assert_eq!(parsed(&["--html", "-h", "--nonsense"]), Ok(Command::Help));
        assert_eq!(parsed(&["--version"]), Ok(Command::Version));
        assert_eq!(parsed(&["-V"]), Ok(Command::Version));
    }

    #[test]
    fn wrong_usage() {
        let words = |args: &[&str]| parsed(args).unwrap_err();
        assert_eq!(words(&["--html", "--tree"]), "--html and --tree can't be given together");
        assert_eq!(words(&["--treee"]), "there is no option '--treee' (a file of that name: ./--treee)");
        assert_eq!(words(&["-x\n"]), "there is no option '-x\\n' (a file of that name: ./-x\\n)");
        assert_eq!(words(&["--color=blue"]), "'blue' is no value of --color: it takes always, never or auto");
        assert!(words(&["--color"]).starts_with("--color needs a value"));
        assert!(words(&["--colors"]).starts_with("there is no option '--colors'"));
        assert_eq!(words(&["-", "a", "-"]), "'-' is given twice: standard input can be read only once");
    }
}
