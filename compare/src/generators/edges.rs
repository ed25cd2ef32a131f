//! Special characters put in at every edge of whole files, or in the place of every character.

use super::{Draft, random_verdicts};
use crate::random::Random;

pub const SPECIAL: &[char] = &[
    '\u{9}', '\u{a}', '\u{b}', '\u{c}', '\u{d}', ' ', '\u{85}', '\u{200e}', '\u{200f}', '\u{2028}', '\u{2029}',
    '\u{a0}', '\u{feff}', '\u{3000}', '\u{200b}', '\u{0}', '\u{7f}', 'é', '€', '😀', '\\', '<', '>', '"', '\'', '%',
    ';', '/', ',',
];

pub const FILES: &[&str] = &[
    "%%",
    "%s A\n%%",
    "%x A B\n%%\n%%",
    "%S1 A\n%%\n<A>a <A>;",
    "%expect-missing \"a\"\n%%",
    "%expect-missing\n%%\na ;",
    "%%\na ;",
    "%% a ;\n",
    "%%\na <+INITIAL>'N'",
    "%%\na <-INITIAL>\"N\"\nb ;",
    "%%\n<INITIAL>a ;",
    "%x S\n%%\n<S,INITIAL>\\qa 'N'",
    "%%\n\\q\\ ;",
    "%%\n\\qa\\.b\\  ;",
    "%%\n\\b\\x4\\u\\U ;",
    "%%\na 'N'\nb 'N'\nc \"N\"",
    "%%\n a",
    "%%\na ;\n%%\n",
    "//c\n%%//d\n//e\na ;",
    "%s A\n //c\n%%\n //d\n%%",
    "%s A A B\n%s B A\n%%\n v\na 'N'\n w\nb 'N'",
    "%s A\n%x B\n%expect-missing \"a\" \"b\"\n%%\na 'N'\n<A,B>b <+B>'M'\n\\qc\\  <-A>;\n",
];

pub fn draft(random: &mut Random, index: u64) -> Draft {
    let (mut file, special, at, replaced) = match systematic(index) {
        Some(chosen) => chosen,
        None => several(random),
    };
    let end = if replaced { at + file[at..].chars().next().map_or(0, char::len_utf8) } else { at };
    file.replace_range(at..end, &special.to_string());
    Draft::new(file, random.below(4) as u64).with_verdicts(random_verdicts(random))
}

/// Each file with each special character at each edge, then in the place of each character.
fn systematic(mut index: u64) -> Option<(String, char, usize, bool)> {
    for file in FILES {
        let edges: Vec<usize> = file.char_indices().map(|(at, _)| at).chain([file.len()]).collect();
        let cases = (edges.len() * SPECIAL.len() * 2) as u64;
        if index < cases {
            let index = index as usize;
            let special = SPECIAL[index / 2 % SPECIAL.len()];
            return Some((file.to_string(), special, edges[index / 2 / SPECIAL.len()], index % 2 == 1));
        }
        index -= cases;
    }
    None
}

/// A file that already has some special characters, and one more.
fn several(random: &mut Random) -> (String, char, usize, bool) {
    let mut file = random.pick(FILES).to_string();
    for _ in 0..random.below(4) {
        let at = random_edge(random, &file);
        file.insert(at, random.pick(SPECIAL));
    }
    let at = random_edge(random, &file);
    (file, random.pick(SPECIAL), at, random.percent(30))
}

pub fn random_edge(random: &mut Random, text: &str) -> usize {
    let mut at = random.below(text.len() + 1);
    while !text.is_char_boundary(at) {
        at -= 1;
    }
    at
}
