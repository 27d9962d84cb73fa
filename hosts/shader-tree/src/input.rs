//! Reading files, pipes and standard input.

use std::fs;
use std::io::{self, Read};

use shader_reader::SOURCE_LIMIT;

use crate::args::File;
use crate::text::escaped_name;

/// What was read of a file: one byte above the limit at most, which is enough to be refused.
#[derive(Debug, PartialEq, Eq)]
pub struct Source {
    pub bytes: Vec<u8>,
    /// How many bytes a file above the limit has, where it is known.
    pub length: Option<u64>,
}

impl File {
    /// The name in messages.
    pub fn name(&self) -> String {
        match self {
            File::Stdin => "<stdin>".into(),
            File::Path(path) => escaped_name(path),
        }
    }

    pub fn read(&self) -> io::Result<Source> {
        match self {
            File::Stdin => Ok(Source { bytes: limited(io::stdin().lock())?, length: None }),
            File::Path(path) => {
                let file = fs::File::open(path)?;
                let bytes = limited(&file)?;
                let about = file.metadata()?;
                let length = Some(about.len()).filter(|&length| about.is_file() && length > SOURCE_LIMIT as u64);
                Ok(Source { bytes, length })
            }
        }
    }
}

fn limited(from: impl Read) -> io::Result<Vec<u8>> {
    let mut bytes = Vec::new();
    from.take(SOURCE_LIMIT as u64 + 1).read_to_end(&mut bytes)?;
    Ok(bytes)
}

/// What went wrong with a file or a stream, without the system's number.
pub fn reason(error: &io::Error) -> String {
    let words = error.to_string();
    match words.split_once(" (os error ") {
        Some((words, _)) => words.into(),
        None => words,
    }
}
