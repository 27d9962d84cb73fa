//! Reads GLSL sources into a lossless tree: two lexers and a directive parser, proved in Rattle and linked here as a
//! static library. Every byte of a source stays in the tree; a bad line is marked with an error and read on.
//!
//! ```
//! use shader_reader::read;
//!
//! let src = b"#version 450\n#undef\nvoid main() {}\n";
//! let reading = read(src)?;
//! for entry in reading.entries() {
//!     println!("{}{}", "  ".repeat(entry.level as usize), entry.kind);
//! }
//! for error in reading.errors() {
//!     println!("{}:{}: {}", error.line + 1, error.column + 1, error.message(src));
//! }
//! # assert_eq!(reading.errors().len(), 2);
//! # Ok::<(), shader_reader::Refusal>(())
//! ```
//!
//! Offsets and columns are bytes, lines and columns count from 0. Calls have no state: any number of threads may read
//! at once.
#![warn(missing_docs)]
#![deny(unsafe_op_in_unsafe_fn)]

mod error;
mod ffi;
mod kind;
mod lines;
mod reading;
mod refusal;
mod rows;
mod tables;
mod token;
mod tree;

pub use error::{Error, ErrorKind, Errors, Expected, Message};
pub use kind::SyntaxKind;
pub use lines::{line_table, lookup, Place};
pub use reading::{define_body, read, read_with, Reading, Tables, View};
pub use refusal::Refusal;
pub use rows::{Rows, Span};
pub use token::{paste, tokens, unescape, Token};
pub use tree::{Children, Entries, Entry, Form, Node, Tree};

/// The numbers of an entry.
pub const ENTRY_NUMBERS: usize = <Entry as rows::Row>::NUMBERS;
/// The numbers of an error.
pub const ERROR_NUMBERS: usize = <Error as rows::Row>::NUMBERS;
/// The numbers of a token.
pub const TOKEN_NUMBERS: usize = <Token as rows::Row>::NUMBERS;
/// A source or text has at most so many bytes.
pub const SOURCE_LIMIT: usize = 16_777_216;
/// A body has at most so many `##`.
pub const CONCAT_LIMIT: usize = 256;

/// The examples of README.md run as tests.
#[cfg(doctest)]
#[doc = include_str!("../README.md")]
struct Readme;

/// Ends the program: the linked library gave a number that this package does not know.
fn other_library(what: &str, number: u32) -> ! {
    panic!("libshader_reader.a is not the one that this package was made for: it gave the {what} {number}")
}
