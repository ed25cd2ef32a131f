//! Files to parse. The original does not compile the rules' patterns, which 01 leaves out. Our areas just hold the file's
//! records and are not cleared beforehand.

use super::MOST_RULES;
use super::shape::{Around, Note, Shape, Work, timed, timed_by};
use crate::answers::{self, ACCEPTED};
use crate::bare_walk::{self, Room};
use crate::case::{AREAS, Case, FLAG_COMMENTS, SOURCE_LIMIT};
use crate::library::Library;
use crate::oracle;
use std::time::Duration;

pub const FUNCTION: &str = "troymantle_parse";

pub fn shapes() -> Vec<Shape> {
    vec![
        shape("parse: small file", 0, small_file),
        shape("parse: 40 rules, a name each", 0, || forty_rules("", "a ", "")),
        shape("parse: 40 rules, a state and a name each", 0, || forty_rules("%s S\n", "<S>a ", "")),
        shape("parse: 40 rules, a state, a target and a name each", 0, || forty_rules("%s S\n", "<S>a ", "<S>")),
        shape("parse: many short rules", 0, short_rules),
        shape("parse: few long lines, long patterns", 0, long_patterns),
        shape("parse: few long lines, long names", 0, long_names),
        shape("parse: comments, long lines", FLAG_COMMENTS, || comments(LONG_COMMENT)),
        shape("parse: comments, short lines", FLAG_COMMENTS, || comments("//\n")),
        shape("parse: 2,048 rules whose names begin alike", 0, || alike_names(MOST_RULES)),
    ]
}

fn shape(name: &str, flags: u64, source: fn() -> String) -> Shape {
    Shape::new(name, FUNCTION, 1, move || work(source(), flags))
}

pub fn work(source: String, flags: u64) -> Work {
    work_answered(source, flags, ACCEPTED)
}

/// A file whose answer has this number: accepted, or with faults.
pub fn work_answered(source: String, flags: u64, number: u64) -> Work {
    let case = Case { source: source.clone().into_bytes(), flags, verdicts: vec![], capacities: [0; AREAS] };
    let case = Case { capacities: oracle::needs(&case), ..case };
    let walked = case.clone();
    Work {
        bytes: source.len(),
        original: Box::new(move |around| time_original(around, &source, flags, number)),
        ours: Box::new(move |library| time_ours(library, &case, number)),
        note: Some(Note::BareWalk(Box::new(move || time_bare_walk(&walked)))),
    }
}

fn time_original(around: Around, source: &str, flags: u64, number: u64) -> Duration {
    let comments = flags & FLAG_COMMENTS != 0;
    timed_by(
        around,
        || source.to_string(),
        |source| {
            let parsed = original::parse_only(std::mem::take(source), comments, false);
            assert_eq!(parsed.is_accepted(), number == ACCEPTED, "the original differs on whether the file has faults");
            parsed
        },
    )
}

fn time_ours(library: &Library, case: &Case, number: u64) -> Duration {
    timed(
        || case.capacities.map(|length| vec![0xa5; length]),
        |areas| {
            let mut counts = [0; AREAS];
            let mut lent = areas.each_mut().map(Vec::as_mut_slice);
            let word = library.parse(&case.source, case.flags, &[], &mut lent, &mut counts);
            assert_eq!(answers::number(word), number, "our library answers otherwise");
        },
    )
}

fn time_bare_walk(case: &Case) -> Duration {
    let comments = case.flags & FLAG_COMMENTS != 0;
    timed(|| Room::new(&case.source), |room| bare_walk::walk(std::hint::black_box(&case.source), comments, room))
}

/// About 1,000 bytes with something of everything.
fn small_file() -> String {
    let mut text = "%x STRING COMMENT\n%s NUMBER\n%expect-missing \"UNARY\"\n%%\n".to_string();
    for (number, word) in
        ["if", "else", "while", "return", "struct", "union", "switch", "default", "for", "break"].iter().enumerate()
    {
        text.push_str(&format!("{word} 'KEYWORD_{number}'\n<NUMBER>{word}\\.[0-9]+ <INITIAL>'NUMBER_{number}'\n"));
    }
    text.push_str("\\\" <+STRING>;\n<STRING>\\\" <-STRING>'TEXT'\n<STRING>[^\\\"]+ ;\n");
    for operator in ["\\+", "-", "\\*", "\\/", "=", "\\<", ">", "\\@", "\\#", "\\&", "\\(", "\\)", "\\,", "\\:"] {
        text.push_str(&format!("{operator} 'OPERATOR{}'\n", text.len()));
    }
    text.push_str("[0-9]+ 'INT'\n[a-z][a-z0-9]* 'ID'\n[\\t\\n\\ ]+ ;\n%%\n");
    text
}

/// What a part of a rule costs: the same rules without it and with it.
fn forty_rules(declarations: &str, pattern: &str, target: &str) -> String {
    let lines: String = (10..50).map(|number| format!("{pattern}{target}'NAME_{number}'\n")).collect();
    format!("{declarations}%%\n{lines}")
}

fn short_rules() -> String {
    let lines: String = (0..MOST_RULES - 1).map(|number| format!("[a-z]+\\.\\@{number:04}[0-9]*x? \"\"\n")).collect();
    to_limit("%%\n".to_string() + &lines)
}

fn long_patterns() -> String {
    let pattern = "[a-z0-9]+\\.\\@abc".repeat(1_020);
    let lines: String = (0..4).map(|number| format!("{pattern} 'LONG{number}'\n")).collect();
    to_limit("%%\n".to_string() + &lines)
}

fn long_names() -> String {
    let lines: String = (0..4).map(|number| format!("a{number} '{number}{}'\n", "N".repeat(16_300))).collect();
    to_limit("%%\n".to_string() + &lines)
}

const LONG_COMMENT: &str = "// a comment that runs up to the end of its line and no further\n";

/// Half of them before `%%`, half of them behind it.
fn comments(comment: &str) -> String {
    let half = comment.repeat((SOURCE_LIMIT - 3) / 2 / comment.len());
    to_limit(half.clone() + "%%\n" + &half)
}

pub fn alike_names(rules: usize) -> String {
    let lines: String = (0..rules).map(|number| format!("a{number:04} 'BEGINS_ALIKE_{number:04}'\n")).collect();
    "%%\n".to_string() + &lines
}

/// Filled up with line ends to 65,535 bytes.
fn to_limit(text: String) -> String {
    filled_up(text, SOURCE_LIMIT)
}

/// Filled up with line ends to so many bytes.
pub fn filled_up(text: String, bytes: usize) -> String {
    assert!(text.len() <= bytes, "a shape of {} bytes is above {bytes}", text.len());
    let missing = bytes - text.len();
    text + &"\n".repeat(missing)
}
