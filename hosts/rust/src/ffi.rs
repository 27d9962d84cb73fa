//! The seven calls of libshader_reader.a as C sees them (include/shader_reader.h), and what each needs.
//!
//! A slice passes as a pointer and a length. Every call answers on whatever it is given, writes every number of every
//! table it is lent, keeps nothing and has no state of its own.

#[repr(C)]
pub struct Counted {
    pub refusal: u32,
    pub count: u32,
}

#[repr(C)]
pub struct Reading {
    pub refusal: u32,
    pub entries: u32,
    pub errors: u32,
    pub lines: u32,
}

#[repr(C)]
pub struct Place {
    pub refusal: u32,
    pub line: u32,
    pub column: u32,
}

#[repr(C)]
pub struct Pasted {
    pub refusal: u32,
    pub kind: u32,
}

// SAFETY: these are the declarations of include/shader_reader.h. Each pointer must be valid for its length (an empty
// slice's pointer is not null, which is all that is asked of it), and no table may overlap an input or another table.
unsafe extern "C" {
    pub fn shader_read(
        src: *const u8,
        bytes: usize,
        entries: *mut u32,
        entry_room: usize,
        errors: *mut u32,
        error_room: usize,
        lines: *mut u32,
        line_room: usize,
    ) -> Reading;
    pub fn shader_define_body(src: *const u8, bytes: usize, entries: *mut u32, room: usize) -> Counted;
    pub fn shader_tokens(src: *const u8, bytes: usize, tokens: *mut u32, room: usize) -> Counted;
    pub fn shader_line_table(src: *const u8, bytes: usize, lines: *mut u32, room: usize) -> Counted;
    pub fn shader_unescape(text: *const u8, bytes: usize, output: *mut u8, room: usize) -> Counted;
    pub fn shader_lookup(lines: *const u32, count: usize, offset: u32) -> Place;
    /// Takes numbers alone, so that nothing is asked of its caller.
    pub safe fn shader_paste(lhs: u32, rhs: u32) -> Pasted;
}

#[cfg(test)]
mod tests {
    use super::*;
    use crate::{Refusal, SyntaxKind};

    /// Refusals that the typed calls never meet, since they lend enough and know the kinds.
    #[test]
    fn short_outputs_and_numbers_that_are_no_kinds_are_refused() {
        let (text, mut output) = (b"a\\\nbc", [7; 2]);
        // SAFETY: the pointers are valid for the lengths, and the output is an array of its own.
        let answer = unsafe { shader_unescape(text.as_ptr(), text.len(), output.as_mut_ptr(), output.len()) };
        assert_eq!((answer.refusal, answer.count, output), (Refusal::Output.number(), 0, [0; 2]));
        for (lhs, rhs) in [(0, 1), (1, 0), (87, 1), (1, u32::MAX), (SyntaxKind::LINECONT as u32, 1)] {
            let answer = shader_paste(lhs, rhs);
            assert_eq!((answer.refusal, answer.kind), (Refusal::Kind.number(), 0));
        }
    }
}
