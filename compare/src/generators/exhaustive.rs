//! Every short string over small alphabets, each between a fixed start and end.

use super::{Draft, letters_of_index, random_verdicts};
use crate::random::Random;

struct Alphabet {
    start: &'static str,
    pieces: &'static [&'static str],
    end: &'static str,
    flags: &'static [u64],
}

const ALPHABETS: &[Alphabet] = &[
    // declarations
    Alphabet {
        start: "",
        pieces: &["%", "s", "x", "S", "A", "1", " ", "\n", "%%", "\t", "_", "INITIAL"],
        end: "",
        flags: &[0],
    },
    // names of states
    Alphabet {
        start: "%s",
        pieces: &[" ", "A", "B", "INITIAL", "\n", "%x ", "%X1 ", "+", ".", "\u{85}", "\u{c}", "é", "1"],
        end: "\n%%",
        flags: &[0],
    },
    // repeated names of states
    Alphabet {
        start: "%s A",
        pieces: &[" A", " B", " INITIAL", "\n%x", "\n%s", " C", " 1", "\n%expect-missing \"a\"\n%s"],
        end: "\n%%\n<A,B>q <B>'N'",
        flags: &[0],
    },
    // expected names
    Alphabet {
        start: "%expect-missing",
        pieces: &["\"", "a", " ", "\u{85}", "\u{c}", "\t", "\u{b}", "\u{2028}", "\"a\"", "\"\"", "\u{a0}"],
        end: "\n%%",
        flags: &[0],
    },
    // lines among the rules
    Alphabet {
        start: "%%",
        pieces: &["\n", " ", "\t", "\u{c}", "a", ";", "%%", "//", "'N'", "\u{85}", "\u{2028}"],
        end: "",
        flags: &[0, 1],
    },
    // names of rules
    Alphabet {
        start: "%x S\n%%\na ",
        pieces: &["'", "\"", ";", "N", "<S>", "<", ">", " ", "\n", "b ", "é"],
        end: "",
        flags: &[0],
    },
    // targets
    Alphabet {
        start: "%x S\n%s T\n%%\na <",
        pieces: &["+", "-", "S", "T", ">", "<", " ", "\u{85}", "'N'", ";", "\n", "INITIAL"],
        end: "",
        flags: &[0],
    },
    // state lists
    Alphabet {
        start: "%x S\n%s T\n%%\n<",
        pieces: &["S", "T", "INITIAL", ",", ">", "<", " ", "\u{2029}", "\u{200e}", "\\q", "a", "\\"],
        end: " ;",
        flags: &[0],
    },
    // escapes
    Alphabet {
        start: "%%\n",
        pieces: &["\\", "q", "b", "x", "U", "4", "F", ".", " ", "é", "~", "\t", "<"],
        end: " ;",
        flags: &[0, 2],
    },
    // kinds of escapes
    Alphabet {
        start: "%%\n\\",
        pieces: &["\\", "z", "B", "u", "9", "a", "-", "\"", "/", "<", "\u{20ac}", "\u{1f600}", "\u{85}"],
        end: " 'N'",
        flags: &[0, 3],
    },
    // ends of patterns
    Alphabet {
        start: "%%\na",
        pieces: &["\\", " ", "\t", "\u{c}", "\u{85}", "\u{200f}", "q"],
        end: " 'N'\n\\q ;",
        flags: &[0],
    },
    // whitespace before `%%`
    Alphabet {
        start: "",
        pieces: &[
            "\t", "\n", "\u{b}", "\u{c}", "\r", " ", "\u{85}", "\u{200e}", "\u{200f}", "\u{2028}", "\u{2029}",
            "\u{a0}", "\u{feff}", "%s A", "%%", "//",
        ],
        end: "",
        flags: &[0, 1],
    },
    // whitespace among the rules
    Alphabet {
        start: "%%\n",
        pieces: &[
            "\t", "\n", "\u{b}", "\u{c}", "\r", " ", "\u{85}", "\u{200e}", "\u{200f}", "\u{2028}", "\u{2029}",
            "\u{a0}", "\u{feff}", "a", ";", "//",
        ],
        end: "",
        flags: &[0, 1],
    },
    // repeated names of rules
    Alphabet {
        start: "%%\n",
        pieces: &[
            "a 'N'\n",
            "b \"N\"\n",
            "c 'M'\n",
            " v\n",
            "d ;\n",
            "\\q 'M'\n",
            "<Q>e 'N'\n",
            "f <+INITIAL>'N'\n",
            "<INITIAL>g 'O'\n",
            "%%",
        ],
        end: "",
        flags: &[0],
    },
    // comments
    Alphabet {
        start: "",
        pieces: &["//", "/", " ", "\n", "%%", "a ;", "%s A", "\u{b}", "\u{c}", "\r", "\u{2029}"],
        end: "",
        flags: &[1, 3, 0],
    },
];

pub fn draft(random: &mut Random, index: u64) -> Draft {
    let alphabet = &ALPHABETS[(index % ALPHABETS.len() as u64) as usize];
    let index = index / ALPHABETS.len() as u64;
    let flags = alphabet.flags[(index % alphabet.flags.len() as u64) as usize];
    let letters = letters_of_index(index / alphabet.flags.len() as u64, alphabet.pieces.len());
    let middle: String = letters.iter().map(|letter| alphabet.pieces[*letter]).collect();
    Draft::new([alphabet.start, &middle, alphabet.end].concat(), flags).with_verdicts(random_verdicts(random))
}
