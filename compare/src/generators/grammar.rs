//! Random files: a section of declarations, `%%`, rules, perhaps a later `%%`. Most are clean, so that they are accepted
//! and every record is compared; the others have bad pieces or damage.

use super::edges::{SPECIAL, random_edge};
use super::{Draft, random_verdicts};
use crate::random::Random;

const STATE_NAMES: &[&str] = &["A", "B", "C", "Ab", "A.b", "a_1", "S2", "Az9._"];
const BAD_STATE_NAMES: &[&str] = &["1A", "_", "A-", "é", ".", "A,", "", "INITIAL"];
const RULE_NAMES: &[&str] = &["N", "M", "O", "NM", "N'", "é", "a\"b", ";", "<A>", "\\"];
const LINE_ENDS: &[&str] = &["\n", "\n", "\n", "\n", "\r\n", "\r", "\u{b}", "\u{2028}", "\u{2029}", "\n\n"];
const BLANKS: &[&str] = &[" ", " ", " ", "\t", "  ", " \t", "\u{c} ", "\u{85} "];
const WHITESPACE: &[&str] = &["", "", "", "", " ", "\t", "\u{c}", "\u{85}", "\u{200e}", "\u{200f}"];
const FIRST_ATOMS: &[&str] =
    &["a", "[b-d]+", "é", "\\q", "\\b", "\\.", "\\<", "\\\"", "\\\\", "\"", "'", ">", "(x|y)", "\u{a0}"];
const ATOMS: &[&str] = &[
    "a", "b", "[a-z]", "é", "€", "😀", "\\q", "\\b", "\\.", "\\\\", "\\x41", "\\x{41}", "\\u4", "\\UF", "\\u", "\\x",
    "\\n", "\\z", "\\Z", "\\B", "\\d", "\\9", "\\~", "\\-", "\\&", "\\#", "\\<", "\\\"", "\\/", "\\é", "\\😀", "\\ ",
    "\\\t", " ", "\"", "'", ">", ",", "(x|y)", "%%", "//", "\\\u{85}", "\u{c}",
];
const BAD_LABELS: &[&str] = &["'N\"", "N", "'", "\"", "'N", ";;", "''N", ""];

pub fn draft(random: &mut Random) -> Draft {
    let clean = random.percent(65);
    let mut writer = Writer { random, clean, text: String::new(), states: vec!["INITIAL"], names: vec![] };
    writer.file();
    let mut text = writer.text;
    if random.percent(if clean { 10 } else { 50 }) {
        damage(random, &mut text);
    }
    let flags = if random.percent(98) { random.below(4) as u64 } else { stray_flags(random) };
    let verdicts = if clean && random.percent(70) { vec![0; random.below(4)] } else { random_verdicts(random) };
    Draft::new(text, flags).with_verdicts(verdicts)
}

/// Numbers above 3 whose low bits look like flags.
pub fn stray_flags(random: &mut Random) -> u64 {
    random.pick(&[4, 5, 7, 8, 255, 256, 259, 65_536, 1 << 32, (1 << 32) + 3, u64::MAX])
}

struct Writer<'a> {
    random: &'a mut Random,
    /// Writes no bad piece.
    clean: bool,
    text: String,
    states: Vec<&'static str>,
    names: Vec<String>,
}

impl Writer<'_> {
    fn file(&mut self) {
        for _ in 0..self.random.below(5) {
            self.push_one(WHITESPACE);
            self.declaration();
            self.push_one(WHITESPACE);
            self.push_one(LINE_ENDS);
        }
        self.text.push_str("%%");
        self.push_one(if self.clean { &["", "", " ", "\t", " \t"] } else { WHITESPACE });
        if self.random.percent(85) {
            self.push_one(LINE_ENDS);
        }
        for _ in 0..self.random.below(9) {
            self.line();
            self.push_one(LINE_ENDS);
        }
        if self.random.percent(15) {
            self.text.push_str("%%");
            self.push_one(if self.clean { &["", "\n", " \u{c}\u{2028}"] } else { &["", "x", "\nx ;", "//", " %%"] });
        }
    }

    fn push_one(&mut self, pieces: &[&str]) {
        let piece = self.random.pick(pieces);
        self.text.push_str(piece);
    }

    fn bad(&mut self, percent: usize) -> bool {
        !self.clean && self.random.percent(percent)
    }

    fn declaration(&mut self) {
        if self.bad(8) {
            return self.push_one(&["%", "%a", "%option x", "x", "%expect", "% s A", "%{", "//c", "%s", "%x_ A"]);
        }
        match self.random.below(10) {
            0..6 => self.declared_states(),
            6..9 => self.expected_names(),
            _ => {}
        }
    }

    fn declared_states(&mut self) {
        let fresh: Vec<&'static str> = STATE_NAMES.iter().copied().filter(|name| !self.states.contains(name)).collect();
        if fresh.is_empty() {
            return;
        }
        self.push_one(&["%s", "%x", "%s", "%x", "%S", "%X", "%start", "%x1"]);
        let names = self.random.below(fresh.len().min(4)) + 1;
        for name in fresh.into_iter().take(names) {
            let name = if self.bad(5) { self.random.pick(BAD_STATE_NAMES) } else { name };
            let name = if self.bad(10) { self.random.pick(STATE_NAMES) } else { name };
            self.push_one(&[" ", " ", " ", " ", "\t", "\u{c}", "\u{85}", "\u{200e}"]);
            self.text.push_str(name);
            self.states.push(name);
        }
    }

    fn expected_names(&mut self) {
        self.push_one(&["%expect-missing", "%expect-missing", "%expect-missings", "%expect-missing\"a\""]);
        for _ in 0..self.random.below(4) {
            self.push_one(&[" ", " ", " ", "  ", "\t", "\u{c}", " \u{c}"]);
            let names = if self.bad(10) {
                &["\"", "a", "'a'", "\"a b\"", "\"a\"\u{85}"]
            } else {
                &["\"a\"", "\"bc\"", "\"\"", "\"é\"", "\"a\"b\""]
            };
            self.push_one(names);
        }
    }

    fn line(&mut self) {
        if self.bad(8) {
            return self.push_one(&[
                " ", "\t", "\u{c}", "\u{85}", "\u{200f}", " v", "\tx ;", " %%", " // c", "a", "%", "<", "// c",
            ]);
        }
        if self.random.percent(25) {
            self.state_list();
        } else {
            self.push_one(FIRST_ATOMS);
        }
        for _ in 0..self.random.below(5) {
            self.push_one(ATOMS);
        }
        for _ in 0..self.random.below(3) {
            self.push_one(&["\\", "", "", ""]);
        }
        self.push_one(BLANKS);
        if self.random.percent(35) {
            self.target();
        }
        self.label();
        self.push_one(WHITESPACE);
    }

    fn state(&mut self) -> &'static str {
        if self.bad(10) { self.random.pick(STATE_NAMES) } else { self.random.pick(&self.states) }
    }

    fn state_list(&mut self) {
        self.text.push('<');
        for position in 0..1 + self.random.below(3) {
            if position > 0 {
                self.text.push(',');
            }
            self.push_one(WHITESPACE);
            let state = self.state();
            self.text.push_str(state);
            self.push_one(WHITESPACE);
        }
        if !self.bad(3) {
            self.text.push('>');
        }
    }

    fn target(&mut self) {
        self.text.push('<');
        self.push_one(&["", "", "+", "-"]);
        let state = self.state();
        self.text.push_str(state);
        if self.bad(5) {
            self.push_one(WHITESPACE);
        }
        if !self.bad(3) {
            self.text.push('>');
        }
    }

    fn label(&mut self) {
        if self.bad(5) {
            return self.push_one(BAD_LABELS);
        }
        if self.random.percent(30) {
            return self.push_one(&[";", ";", ";", "\"\"", "''"]);
        }
        let mut name = self.random.pick(RULE_NAMES).to_string();
        while self.clean && self.names.contains(&name) {
            name.push_str(&self.names.len().to_string());
        }
        let quote = self.random.pick(&["'", "\""]);
        self.text.push_str(&[quote, &name, quote].concat());
        self.names.push(name);
    }
}

fn damage(random: &mut Random, text: &mut String) {
    for _ in 0..1 + random.below(3) {
        let at = random_edge(random, text);
        match random.below(5) {
            0 => text.truncate(at),
            1 => text.insert(at, random.pick(SPECIAL)),
            2 if at < text.len() => {
                text.remove(at);
            }
            3 => {
                let from = random_edge(random, text).min(at);
                let copy = text[from..at].to_string();
                text.insert_str(at, &copy);
            }
            _ => text.insert_str(at, random.pick(ATOMS)),
        }
    }
}
