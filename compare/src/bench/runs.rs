//! Runs of one character a move.

use super::MOST_RULES;
use super::shape::{Around, Note, Shape, Work, timed, timed_by};
use crate::library::Library;
use crate::link;
use crate::sheet::{self, Sheet};
use crate::show;
use crate::step::SELLER;
use original::Definition;
use std::time::Duration;

pub const FUNCTION: &str = "troymantle_step";
/// Of a shape, or a few less where an entry of few characters is run over several times.
pub const MOVES: usize = 256;
const FEW_RULES: usize = 10;
/// Of an entry; the second is the limit.
const BYTES: [usize; 2] = [16, 4_096];

pub fn shapes() -> Vec<Shape> {
    let mut shapes = vec![];
    for rules in [FEW_RULES, MOST_RULES] {
        let name = format!("step: {} rules", show::number(rules as u64));
        shapes.push(shape(&name, move || Moves::mixed(rules)));
        shapes.push(shape(&format!("{name}, longest not live"), move || Moves::longest_not_live(rules)));
        for (characters, what) in [(ASCII, ""), (MULTI_BYTE, ", multi-byte")] {
            for bytes in BYTES {
                let text = text(bytes, characters);
                let name = format!("{name}, {} bytes{what}", show::number(bytes as u64));
                let calls = calls(&text);
                let make = move || work(Moves::mixed(rules).over(text.clone()));
                shapes.push(Shape::new(name, FUNCTION, calls as u32, make));
            }
        }
    }
    shapes.push(shape(
        &format!("step: {} rules, lists of {LIST_ENTRIES} states", show::number(LISTS as u64)),
        Moves::long_lists,
    ));
    shapes
}

/// What the characters of an entry are in turn.
const ASCII: &str = "a";
const MULTI_BYTE: &str = "é€😀";

/// So many bytes, filled up where no character fits.
fn text(bytes: usize, characters: &str) -> String {
    let mut text = String::new();
    for character in characters.chars().cycle() {
        if text.len() + character.len_utf8() > bytes {
            break;
        }
        text.push(character);
    }
    text.push_str(&"a".repeat(bytes - text.len()));
    text
}

fn moves_of_a_run(text: &str) -> usize {
    text.chars().count().min(MOVES)
}

/// How often the moves are made.
fn runs(text: &str) -> usize {
    MOVES / moves_of_a_run(text)
}

fn calls(text: &str) -> usize {
    runs(text) * moves_of_a_run(text)
}

/// A file, the names of its rules, the text of an entry and a row for each move, of a long entry for the first moves.
pub struct Moves {
    source: String,
    names: Vec<String>,
    text: String,
    rows: Vec<Vec<usize>>,
}

impl Moves {
    /// A rule in four is a skip; the lengths are 0 and 1.
    fn new(declarations: &str, rules: usize, list: impl Fn(usize) -> String) -> Moves {
        let mut source = format!("{declarations}%%\n");
        let mut names = vec![];
        for rule in 0..rules {
            source.push_str(&list(rule));
            if rule % 4 == 3 {
                source.push_str("a ;\n");
            } else {
                source.push_str(&format!("a 'N{rule}'\n"));
                names.push(format!("N{rule}"));
            }
        }
        let rows = (0..MOVES).map(|at| (0..rules).map(|rule| usize::from((rule + at) % 7 > 3)).collect()).collect();
        Moves { source, names, text: text(MOVES, ASCII), rows }
    }

    /// Over another text; a length is 0 or that of the next character.
    fn over(self, text: String) -> Moves {
        let row =
            |(row, character): (&Vec<usize>, char)| row.iter().map(|length| length * character.len_utf8()).collect();
        let rows = self.rows.iter().zip(text.chars()).map(row).collect();
        Moves { text, rows, ..self }
    }

    /// As the original is lent them, whose loop stops behind the last move.
    fn rows_by_position(&self) -> Vec<Vec<usize>> {
        let mut by_position = vec![vec![]; self.text.len()];
        let stop = vec![0; self.rows[0].len()];
        for ((position, _), row) in self.text.char_indices().zip(self.rows.iter().chain([&stop])) {
            by_position[position] = row.clone();
        }
        by_position
    }

    /// A third of the rules has no list, a third is live in S alone, a third in INITIAL and S. Where no live rule would
    /// match, which happens with less than 6 rules, the first matches one byte.
    pub fn mixed(rules: usize) -> Moves {
        let mut moves = Moves::new("%s S\n%x T\n", rules, |rule| ["", "<S>", "<INITIAL,S>"][rule % 3].to_string());
        for row in &mut moves.rows {
            if row.iter().enumerate().all(|(rule, length)| rule % 3 == 1 || *length == 0) {
                row[0] = 1;
            }
        }
        moves
    }

    /// The rules that are live in S alone match two bytes wherever two are left.
    fn longest_not_live(rules: usize) -> Moves {
        let mut moves = Moves::mixed(rules);
        for (at, row) in moves.rows.iter_mut().enumerate() {
            row.iter_mut().skip(1).step_by(3).for_each(|length| *length = 2.min(MOVES - at));
        }
        moves
    }

    /// Every second rule is live, by the last state of its list.
    fn long_lists() -> Moves {
        let states: Vec<String> = ('A'..='Z').take(LIST_ENTRIES).map(String::from).collect();
        let others = states[1..].join(",");
        let declarations = format!("%s {}\n", states.join(" "));
        Moves::new(&declarations, LISTS, |rule| format!("<{others},{}>", ["A", "INITIAL"][rule % 2]))
    }

    fn map(&self) -> Vec<(&str, u16)> {
        self.names.iter().map(String::as_str).zip(0..).collect()
    }

    /// Parsed, and linked by the names of all rules.
    fn sheet(&self) -> Sheet {
        let map: Vec<(String, u16)> = self.names.iter().cloned().zip(0..).collect();
        let call = link::call(sheet::parsed(&self.source, 0), &map);
        let left = link::against_model(&call).unwrap_or_else(|told| panic!("{told}"));
        link::linked(&call.sheet, &left)
    }

    fn row_bytes(&self) -> Vec<Vec<u8>> {
        let bytes = |row: &Vec<usize>| row.iter().flat_map(|length| (*length as u16).to_le_bytes()).collect();
        self.rows.iter().map(bytes).collect()
    }
}

const LISTS: usize = 1_000;
const LIST_ENTRIES: usize = 24;

fn shape(name: &str, moves: impl Fn() -> Moves + 'static) -> Shape {
    Shape::new(name, FUNCTION, MOVES as u32, move || work(moves()))
}

/// The original's loop finds its lengths in a table; what a regex would take is not in it.
pub fn work(moves: Moves) -> Work {
    let mut definition = Definition::new(&moves.source, false, false, &[]).expect("the file has no faults");
    definition.link(&moves.map());
    original::lend_rows(&moves.rows_by_position());
    let (sheet, rows, runs) = (moves.sheet(), moves.row_bytes(), runs(&moves.text));
    let (checked, checks) = (sheet.clone(), calls(&moves.text));
    let Moves { source, text, .. } = moves;
    let entry = text.clone();
    Work {
        bytes: source.len(),
        original: Box::new(move |around| time_original(around, &definition, &entry, runs)),
        ours: Box::new(move |library| time_ours(library, &sheet, text.as_bytes(), &rows, runs)),
        note: Some(Note::SheetCheck(Box::new(move |library| time_check(library, &checked, checks)))),
    }
}

fn time_original(around: Around, definition: &Definition, text: &str, runs: usize) -> Duration {
    let run = |entry: &mut String| (0..runs).map(|_| definition.run_only(entry)).sum::<usize>();
    timed_by(around, || text.to_string(), run)
}

fn time_ours(library: &Library, sheet: &Sheet, text: &[u8], rows: &[Vec<u8>], runs: usize) -> Duration {
    let begun = || {
        let (mut numbers, mut stack) = ([0; 5], vec![0; 2 * (text.len() + 1)]);
        let word = library.start(SELLER, text.len() as u64, text, &mut numbers, &mut stack);
        assert_eq!(word, 0, "our library does not start");
        (numbers, stack)
    };
    let run = |(numbers, stack): &mut ([u16; 5], Vec<u8>)| {
        for row in rows {
            library.step(sheet, text, numbers, stack, row);
        }
        assert_eq!(numbers[3] as usize, rows.len(), "our library does not move by every row");
    };
    timed(|| (0..runs).map(|_| begun()).collect::<Vec<_>>(), |begun| begun.iter_mut().for_each(run))
}

/// As often as there are moves. The pattern test does little else.
fn time_check(library: &Library, sheet: &Sheet, checks: usize) -> Duration {
    timed(
        || (),
        |()| {
            for _ in 0..checks {
                assert_eq!(library.pattern_test(sheet, 0), 0, "our library finds the sheet broken");
            }
        },
    )
}

#[cfg(test)]
mod tests {
    use super::*;
    use crate::sheet::{Rule, field};

    fn is_live(sheet: &Sheet, rule: &Rule) -> bool {
        rule.list().is_empty() || rule.list().any(|k| field(&sheet.areas[2], 2 * k) == 0)
    }

    #[test]
    fn a_live_rule_matches_in_every_row() {
        for rules in [1, 2, 3, 4, 5, 6, 7, 8, FEW_RULES, MOST_RULES] {
            let moves = Moves::mixed(rules);
            let sheet = moves.sheet();
            let live: Vec<bool> = sheet.rules().iter().map(|rule| is_live(&sheet, rule)).collect();
            assert!(moves.rows.iter().all(|row| row.iter().zip(&live).any(|(length, live)| *live && *length == 1)));
            let plain = Moves::new("%%\n", rules, |_| String::new());
            assert_eq!(rules < 6, moves.rows != plain.rows);
        }
    }

    #[test]
    fn texts_have_their_bytes_and_moves() {
        let told = |bytes, characters| {
            let text = text(bytes, characters);
            assert_eq!(text.len(), bytes);
            let moves = Moves::mixed(FEW_RULES).over(text.clone());
            let longest = |row: &Vec<usize>| row.iter().max().copied();
            let covered: Vec<Option<usize>> = moves.rows.iter().map(longest).collect();
            let lengths = text.chars().take(MOVES).map(|character| Some(character.len_utf8()));
            assert_eq!(covered, lengths.collect::<Vec<_>>());
            let lent = moves.rows_by_position().iter().filter(|row| !row.is_empty()).count();
            assert_eq!(lent, text.chars().count().min(MOVES + 1));
            (covered.len(), runs(&text), calls(&text))
        };
        assert_eq!([16, 256, 4_096].map(|bytes| told(bytes, ASCII)), [(16, 16, 256), (256, 1, 256), (256, 1, 256)]);
        assert_eq!([16, 4_096].map(|bytes| told(bytes, MULTI_BYTE)), [(7, 36, 252), (256, 1, 256)]);
    }

    #[test]
    fn no_live_rule_has_the_greatest_length() {
        for rules in [FEW_RULES, MOST_RULES] {
            let moves = Moves::longest_not_live(rules);
            let sheet = moves.sheet();
            let live: Vec<bool> = sheet.rules().iter().map(|rule| is_live(&sheet, rule)).collect();
            for row in &moves.rows[..MOVES - 1] {
                let lengths = row.iter().zip(&live).filter(|(_, live)| **live).map(|(length, _)| *length);
                assert_eq!((lengths.max(), row.iter().copied().max()), (Some(1), Some(2)));
            }
        }
    }

    #[test]
    fn long_lists_end_with_the_state_that_decides() {
        let sheet = Moves::long_lists().sheet();
        assert!(sheet.passes());
        assert_eq!(sheet.counts[2], 24_000);
        let rules = sheet.rules();
        assert!(rules.iter().all(|rule| rule.list().len() == 24));
        assert_eq!(rules.iter().filter(|rule| is_live(&sheet, rule)).count(), 500);
    }
}
