//! The exports of the static library, as a Rust host declares them. A slice is passed as a pointer
//! and a length, as include/shader_reader.h says.

#[repr(C)]
#[derive(Debug, Clone, Copy, PartialEq, Eq)]
pub struct Counted {
    pub refusal: u32,
    pub count: u32,
}

#[repr(C)]
#[derive(Debug, Clone, Copy, PartialEq, Eq)]
pub struct Reading {
    pub refusal: u32,
    pub entries: u32,
    pub errors: u32,
    pub lines: u32,
}

#[repr(C)]
#[derive(Debug, Clone, Copy, PartialEq, Eq)]
pub struct Place {
    pub refusal: u32,
    pub line: u32,
    pub column: u32,
}

#[repr(C)]
#[derive(Debug, Clone, Copy, PartialEq, Eq)]
pub struct Pasted {
    pub refusal: u32,
    pub kind: u32,
}

/// The calls of a library
#[derive(Clone, Copy)]
pub struct Library {
    pub tokens: fn(&[u8], &mut [u32]) -> Counted,
    pub line_table: fn(&[u8], &mut [u32]) -> Counted,
    pub unescape: fn(&[u8], &mut [u8]) -> Counted,
    pub read: fn(&[u8], &mut [u32], &mut [u32], &mut [u32]) -> Reading,
    pub define_body: fn(&[u8], &mut [u32]) -> Counted,
    pub lookup: fn(&[u32], u32) -> Place,
    pub paste: fn(u32, u32) -> Pasted,
}

/// The calls of the library whose exports have these names
macro_rules! library {
    ($tokens:ident $line_table:ident $unescape:ident $read:ident $define_body:ident $lookup:ident $paste:ident) => {
        extern "C" {
            fn $tokens(src: *const u8, bytes: usize, tokens: *mut u32, room: usize) -> Counted;
            fn $line_table(src: *const u8, bytes: usize, lines: *mut u32, room: usize) -> Counted;
            fn $unescape(text: *const u8, bytes: usize, output: *mut u8, room: usize) -> Counted;
            fn $read(
                src: *const u8,
                bytes: usize,
                entries: *mut u32,
                entry_room: usize,
                errors: *mut u32,
                error_room: usize,
                lines: *mut u32,
                line_room: usize,
            ) -> Reading;
            fn $define_body(src: *const u8, bytes: usize, entries: *mut u32, room: usize) -> Counted;
            fn $lookup(lines: *const u32, count: usize, offset: u32) -> Place;
            fn $paste(lhs: u32, rhs: u32) -> Pasted;
        }

        pub fn tokens(src: &[u8], tokens: &mut [u32]) -> Counted {
            unsafe { $tokens(src.as_ptr(), src.len(), tokens.as_mut_ptr(), tokens.len()) }
        }

        pub fn line_table(src: &[u8], lines: &mut [u32]) -> Counted {
            unsafe { $line_table(src.as_ptr(), src.len(), lines.as_mut_ptr(), lines.len()) }
        }

        pub fn unescape(text: &[u8], output: &mut [u8]) -> Counted {
            unsafe { $unescape(text.as_ptr(), text.len(), output.as_mut_ptr(), output.len()) }
        }

        pub fn read(src: &[u8], entries: &mut [u32], errors: &mut [u32], lines: &mut [u32]) -> Reading {
            let (entry_room, error_room, line_room) = (entries.len(), errors.len(), lines.len());
            let (entries, errors, lines) = (entries.as_mut_ptr(), errors.as_mut_ptr(), lines.as_mut_ptr());
            unsafe { $read(src.as_ptr(), src.len(), entries, entry_room, errors, error_room, lines, line_room) }
        }

        pub fn define_body(src: &[u8], entries: &mut [u32]) -> Counted {
            unsafe { $define_body(src.as_ptr(), src.len(), entries.as_mut_ptr(), entries.len()) }
        }

        pub fn lookup(lines: &[u32], offset: u32) -> Place {
            unsafe { $lookup(lines.as_ptr(), lines.len(), offset) }
        }

        pub fn paste(lhs: u32, rhs: u32) -> Pasted {
            unsafe { $paste(lhs, rhs) }
        }

        pub const LIBRARY: Library = Library { tokens, line_table, unescape, read, define_body, lookup, paste };
    };
}

library!(shader_tokens shader_line_table shader_unescape shader_read shader_define_body shader_lookup shader_paste);

#[cfg(before)]
mod before {
    use super::{Counted, Library, Pasted, Place, Reading};

    library!(before_shader_tokens before_shader_line_table before_shader_unescape before_shader_read
        before_shader_define_body before_shader_lookup before_shader_paste);
}

/// An earlier library, where one is linked too: its exports have other names
#[cfg(before)]
pub const BEFORE: Option<Library> = Some(before::LIBRARY);

#[cfg(not(before))]
pub const BEFORE: Option<Library> = None;
