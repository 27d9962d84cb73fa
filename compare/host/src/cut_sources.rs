//! Sources that are cut inside a character: each beginning of a character alone, behind text and before other bytes.

use crate::{checker::Checker, cut, damage, directives, jobs, jobs::Plan, Random};

/// Adds the comparisons of all calls on a source
pub fn plan(plan: &mut Plan, quick: bool) {
    let rounds = if quick { 1 } else { 64 };
    kind(plan, "calls/cut", "cut inside each character", rounds, Checker::source);
    kind(plan, "reading/cut", "reading: cut inside each character", rounds, Checker::reading);
}

fn kind(
    plan: &mut Plan,
    word: &'static str,
    name: &'static str,
    rounds: usize,
    compare: fn(&mut Checker, source: &[u8]),
) {
    const AT_ONCE: usize = 256;
    plan.kind(word, name);
    let seed = plan.kinds.len() << 32;
    let beginnings: Vec<&[u8]> = cut::beginnings().collect();
    for (part, some) in beginnings.chunks(AT_ONCE).enumerate() {
        let some = some.to_vec();
        plan.job(move |checker| {
            let mut random = Random((seed + part) as u64);
            some.iter().for_each(|cut| sources(&mut random, cut, rounds, |source| compare(checker, source)));
        });
    }
}

/// The beginning alone; and so many times behind two texts, before one, and with damage behind it and in front
fn sources(random: &mut Random, cut: &[u8], rounds: usize, mut compare: impl FnMut(&[u8])) {
    compare(cut);
    for _ in 0..rounds {
        let [front, other, behind] = [0, 1, 2].map(|_| text(random));
        let damage = damage::not_utf8(random);
        compare(&[&front, cut].concat());
        compare(&[&other, cut].concat());
        compare(&[cut, &behind].concat());
        compare(&[&front, cut, &damage].concat());
        compare(&[&damage, &other, cut].concat());
    }
}

/// A text of directives, newlines, comments and characters of all lengths; now and then a long one, or a body of too
/// many ##
fn text(random: &mut Random) -> Vec<u8> {
    let most = if random.one_in(16) { 60 } else { 10 };
    match random.below(64) {
        0 => format!("#if {}\n", "##".repeat(257)).into_bytes(),
        1..=19 => jobs::text(random, most),
        20..=39 => directives::pieces(random, most),
        40..=49 => characters(random, most),
        50..=54 => [b"/*", &characters(random, most)[..], b"*/"].concat(),
        _ => [directives::pieces(random, most), characters(random, most), jobs::text(random, most)].concat(),
    }
}

/// Characters of one to four bytes
fn characters(random: &mut Random, most: usize) -> Vec<u8> {
    const BORDERS: [u32; 5] = [0, 0x80, 0x800, 0x1_0000, 0x11_0000];
    let mut text = String::new();
    for _ in 0..random.below(most) {
        let form = random.below(4);
        let number = BORDERS[form] + random.below((BORDERS[form + 1] - BORDERS[form]) as usize) as u32;
        text.extend(char::from_u32(number));
    }
    text.into_bytes()
}
