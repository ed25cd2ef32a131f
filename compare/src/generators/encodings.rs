//! Bytes that are UTF-8 and bytes that are nearly so.

use super::{Draft, grammar, letters_of_index};
use crate::random::Random;

/// The bytes at the edges of the rows of Unicode's table of well-formed sequences, and some whitespace's.
pub const EDGE_BYTES: &[u8] = &[
    b'a', b'%', 0x7f, 0x80, 0x85, 0x8f, 0x90, 0x9f, 0xa0, 0xa8, 0xbf, 0xc0, 0xc1, 0xc2, 0xdf, 0xe0, 0xe2, 0xec, 0xed,
    0xee, 0xef, 0xf0, 0xf1, 0xf3, 0xf4, 0xf5, 0xff,
];

/// The first and last characters of each length and around the surrogates, their damaged neighbours, and cut ones.
const SEQUENCES: &[&[u8]] = &[
    b"\xc2\x85",
    b"\xe2\x80\xa8",
    b"\xed\x9f\xbf",
    b"\xed\xa0\x80",
    b"\xee\x80\x80",
    b"\xf4\x8f\xbf\xbf",
    b"\xf4\x90\x80\x80",
    b"\xf0\x90\x80\x80",
    b"\xf0\x8f\xbf\xbf",
    b"\xe0\xa0\x80",
    b"\xe0\x9f\xbf",
    b"\xc1\xbf",
    b"\xe2\x80",
    b"\xc2",
    b"\x85",
];

pub fn draft(random: &mut Random, index: u64) -> Draft {
    if index.is_multiple_of(2) {
        let letters = letters_of_index(index / 2, EDGE_BYTES.len());
        let bytes = letters.iter().map(|letter| EDGE_BYTES[*letter]);
        let start: &[u8] = random.pick(&[b"" as &[u8], b"%%\n", b"%%\n\\"]);
        return Draft::new(start.iter().copied().chain(bytes).collect::<Vec<u8>>(), 0);
    }
    let mut draft = grammar::draft(random);
    for _ in 0..1 + random.below(3) {
        damage(random, &mut draft.source);
    }
    if random.percent(10) {
        draft.flags = grammar::stray_flags(random);
    }
    draft
}

/// Cuts, changes, removes or inserts something.
pub fn damage(random: &mut Random, source: &mut Vec<u8>) {
    let at = random.below(source.len() + 1);
    match random.below(4) {
        0 => source.truncate(at),
        1 if at < source.len() => source[at] = random.pick(EDGE_BYTES),
        2 if at < source.len() => {
            source.remove(at);
        }
        _ => {
            let sequence = random.pick(SEQUENCES);
            source.splice(at..at, sequence.iter().copied());
        }
    }
}
