//! What document 01 says of every accepted reading, looked up in its tables.

use crate::exports::Reading;

/// The first claim that the reading of so many bytes breaks
pub fn broken(bytes: usize, answer: Reading, [entries, errors, lines]: [&[u32]; 3]) -> Option<&'static str> {
    let (most, few) = (2 * bytes + 1, bytes + 1);
    let counts = [answer.entries, answer.errors, answer.lines].map(|count| count as usize);
    let (entries, errors) = (&entries[..5 * counts[0]], &errors[..10 * counts[1]]);
    let claims = [
        ("a source of n bytes has at most 2n+1 entries", counts[0] <= most),
        ("a source of n bytes has at most n errors", counts[1] <= bytes),
        ("a source of n bytes has at most n+1 lines", counts[2] <= few),
        ("the leaves join to the source", tile(bytes, entries)),
        ("the starts of errors never fall", never_fall(errors)),
        ("line starts rise, and the first is 0", lines[0] == 0 && rise(&lines[..counts[2]])),
    ];
    claims.into_iter().find_map(|(claim, holds)| (!holds).then_some(claim))
}

/// Whether the leaves, none of them empty, follow one another from the first byte to the last
fn tile(bytes: usize, entries: &[u32]) -> bool {
    let mut at = 0;
    let mut leaves = entries.chunks_exact(5).filter(|entry| entry[0] == 0);
    leaves.all(|leaf| std::mem::replace(&mut at, leaf[4]) == leaf[3] && leaf[3] < leaf[4]) && at as usize == bytes
}

fn never_fall(errors: &[u32]) -> bool {
    let starts = || errors.chunks_exact(10).map(|error| error[1]);
    starts().zip(starts().skip(1)).all(|(start, next)| start <= next)
}

fn rise(lines: &[u32]) -> bool {
    lines.windows(2).all(|pair| pair[0] < pair[1])
}
