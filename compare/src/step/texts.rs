//! Starts and steps at every edge of 02's conditions, 2/13: texts that do not fit the entry, lengths that cut a
//! character, and runs at positions off an edge.

use super::by_hand::{Tried, good, good_sheet, in_state_1, letters, moved, no_rules, row, with_numbers};
use super::{Run, token};
use crate::answers::{BROKEN_RUN, BROKEN_SHEET, DONE, ROW_MISMATCH, START_REFUSED, STOPPED, TEXT_MISMATCH, UNLINKED};
use crate::broken_sheets::set;
use crate::place::DAMAGED;
use crate::sheet::Sheet;

pub fn tried() -> Vec<Tried> {
    [starts(), damaged_starts(), lengths(), damaged(), orders(), edges(), off_edges()].into_iter().flatten().collect()
}

/// 10 bytes, as many as the good run has. Edges are 0 to 4, 6, 7 and 10.
const MIXED: &str = "abcdéf€";

/// The first and the last character of each length, 19 bytes.
const LIMITS: &str = "\u{7f}\u{80}\u{7ff}\u{800}\u{ffff}\u{10000}\u{10ffff}";

fn starts() -> Vec<Tried> {
    let tried = [
        (0, "".to_string(), 0),
        (0, "a".to_string(), TEXT_MISMATCH),
        (1, "".to_string(), TEXT_MISMATCH),
        // n counts bytes and not characters
        (1, "é".to_string(), TEXT_MISMATCH),
        (2, "é".to_string(), 0),
        (9, MIXED.to_string(), TEXT_MISMATCH),
        (10, MIXED.to_string(), 0),
        (11, MIXED.to_string(), TEXT_MISMATCH),
        (19, LIMITS.to_string(), 0),
        (4_096, "é".repeat(2_048), 0),
        (4_096, "é".repeat(2_049), TEXT_MISMATCH),
        (4_096, "a".repeat(4_095), TEXT_MISMATCH),
        (3, "a".repeat(65_539), TEXT_MISMATCH),
        // 8 comes before 12
        (4_097, "a".to_string(), START_REFUSED),
        (u64::MAX, "".to_string(), START_REFUSED),
    ];
    let short_stacks = [letters(9), letters(11)].map(|text| Tried::start(10, &text, 21, START_REFUSED));
    tried
        .map(|(n, text, number)| Tried::start(n, text.as_bytes(), 8_194, number))
        .into_iter()
        .chain(short_stacks)
        .collect()
}

fn damaged_starts() -> Vec<Tried> {
    let starts = |text: &&[u8]| {
        let n = text.len();
        [
            Tried::start(n as u64, text, 2 * (n + 1), TEXT_MISMATCH),
            Tried::start(n as u64, text, 2 * n + 1, START_REFUSED),
            Tried::start(n as u64 + 1, text, 2 * (n + 2), TEXT_MISMATCH),
        ]
    };
    DAMAGED.iter().flat_map(starts).collect()
}

/// On the good run, with a row that fits.
fn on(text: &[u8], what: &str, left: (u64, Run)) -> Tried {
    Tried::step_on(text, what, &good_sheet(), &good(), &row(&[2, 0]), left)
}

fn refused(text: &[u8], what: &str) -> Tried {
    on(text, what, (TEXT_MISMATCH, good()))
}

fn lengths() -> Vec<Tried> {
    let token = (token(9, 4, 2), moved(&good(), 2));
    vec![
        on(&letters(10), "ASCII", token.clone()),
        on(MIXED.as_bytes(), "another text of as many bytes", token.clone()),
        on("a\0\n\r\u{80}\u{feff}a".as_bytes(), "every code point is a character", token),
        refused(&letters(9), "a byte less"),
        refused(&letters(11), "a byte more"),
        refused(&[], "no text"),
        refused(&letters(65_546), "65,536 bytes more"),
        refused("éééééé".as_bytes(), "a character more"),
        refused("éééééééééé".as_bytes(), "n characters"),
    ]
}

/// Each damage at the start, where the run has passed it, and at the end.
fn damaged() -> Vec<Tried> {
    let texts = |damage: &&[u8]| {
        let rest = letters(10 - damage.len());
        [[*damage, &rest].concat(), [&rest, *damage].concat()]
    };
    DAMAGED.iter().flat_map(texts).map(|text| refused(&text, "damaged")).collect()
}

/// 6, 12, 9, 'done', 10, each with 12's condition before or behind it.
fn orders() -> Vec<Tried> {
    let mut broken_sheet = good_sheet();
    broken_sheet.counts[0] = 0;
    let step = |text: &[u8], what, numbers, row: &[u8], number| {
        let run = with_numbers(numbers);
        Tried::step_on(text, what, &good_sheet(), &run, row, (number, run.clone()))
    };
    let (bad, fitting) = (b"aaaaaaaaa\xc3", row(&[2, 0]));
    let (broken, at_the_end) = ([10, 4, 3, 5], [10, 10, 3, 10]);
    let run = with_numbers(broken);
    vec![
        Tried::step_on(bad, "6 before 12", &broken_sheet, &good(), &fitting, (BROKEN_SHEET, good())),
        Tried::step_on(bad, "6 before 12, 9 and 10", &broken_sheet, &run, &[], (BROKEN_SHEET, run.clone())),
        step(bad, "12 before 9", broken, &fitting, TEXT_MISMATCH),
        step(&letters(10), "9 alone", broken, &fitting, BROKEN_RUN),
        step(MIXED.as_bytes(), "9 before 10, a length that cuts é", broken, &row(&[1, 0]), BROKEN_RUN),
        step(&letters(10), "12 and not 9, n is not the text's", [4_097, 4, 3, 2], &fitting, TEXT_MISMATCH),
        step(&letters(4_097), "9, n is the text's", [4_097, 4, 3, 2], &fitting, BROKEN_RUN),
        step(&letters(10), "12 and not 'done', n is not the text's", [4, 4, 3, 2], &fitting, TEXT_MISMATCH),
        step(bad, "12 before 'done'", at_the_end, &fitting, TEXT_MISMATCH),
        step(&letters(9), "12 before 'done', a byte less", at_the_end, &row(&[0, 0]), TEXT_MISMATCH),
        step(MIXED.as_bytes(), "'done', and no length is looked at", at_the_end, &row(&[1, 65_535]), DONE),
        step(&[], "'done' of no bytes", [0, 0, 1, 0], &row(&[0, 0]), DONE),
        step(b"\xc3", "12, and no byte is the entry's", [0, 0, 1, 0], &row(&[0, 0]), TEXT_MISMATCH),
        step(bad, "12 before 10, no row", [10, 4, 3, 2], &[], TEXT_MISMATCH),
        step(bad, "12 before 10, above the bytes left", [10, 4, 3, 2], &row(&[7, 0]), TEXT_MISMATCH),
        step(bad, "12 before 'stopped'", [10, 4, 3, 2], &row(&[0, 0]), TEXT_MISMATCH),
    ]
}

/// Both rules are live in state 0.
fn both_live() -> Sheet {
    let mut sheet = good_sheet();
    set(&mut sheet.areas[1], 14 + 11, 0);
    sheet
}

/// From position 4, where é, f and € stand, lengths of 0, 2, 3 and 6 end on an edge.
fn edges() -> Vec<Tried> {
    let (run, s) = (good(), in_state_1());
    let step = |what, sheet: &Sheet, run: &Run, lengths: [u16; 2], left| {
        Tried::step_on(MIXED.as_bytes(), what, sheet, run, &row(&lengths), left)
    };
    let moves = |what, lengths: [u16; 2]| {
        let [length, _] = lengths;
        step(what, &good_sheet(), &run, lengths, (token(9, 4, length), moved(&run, length)))
    };
    let cut = |what, lengths| step(what, &good_sheet(), &run, lengths, (ROW_MISMATCH, run.clone()));
    vec![
        moves("two bytes", [2, 0]),
        moves("two bytes and one", [3, 2]),
        moves("to the end of the text", [6, 6]),
        moves("the rule that is not live has the longest", [2, 6]),
        cut("the winner cuts é", [1, 0]),
        cut("the winner cuts € behind its first byte", [4, 0]),
        cut("the winner cuts € behind its second byte", [5, 0]),
        cut("a rule that is not live cuts é", [2, 1]),
        cut("a rule that is not live cuts €", [2, 5]),
        cut("10 before 'stopped'", [0, 1]),
        step("no length", &good_sheet(), &run, [0, 0], (STOPPED, run.clone())),
        step("a live rule that wins", &both_live(), &run, [3, 2], (token(9, 4, 3), moved(&run, 3))),
        step("a live rule that does not win cuts é", &both_live(), &run, [3, 1], (ROW_MISMATCH, run.clone())),
        step("a live rule that does not win cuts €", &both_live(), &run, [6, 5], (ROW_MISMATCH, run.clone())),
        step("unlinked", &good_sheet(), &s, [0, 2], (UNLINKED, s.clone())),
        step("10 before 'unlinked'", &good_sheet(), &s, [0, 1], (ROW_MISMATCH, s.clone())),
    ]
}

/// No start and no step leads to such a position. From 5, inside é, lengths of 1, 2 and 5 end on an edge.
fn off_edges() -> Vec<Tried> {
    let at = |position| with_numbers([10, position, 3, 2]);
    let step = |what, sheet: &Sheet, position, lengths: &[u16], left| {
        Tried::step_on(MIXED.as_bytes(), what, sheet, &at(position), &row(lengths), left)
    };
    let moves = |what, position, lengths: [u16; 2]| {
        let left = (token(9, position, lengths[0]), moved(&at(position), lengths[0]));
        step(what, &good_sheet(), position, &lengths, left)
    };
    let ill =
        |what, position, lengths: [u16; 2]| step(what, &good_sheet(), position, &lengths, (ROW_MISMATCH, at(position)));
    vec![
        moves("inside é, to its end", 5, [1, 1]),
        moves("inside é, to other edges", 5, [2, 5]),
        moves("inside é, to the end of the text", 5, [5, 1]),
        moves("inside €, to its end", 8, [2, 2]),
        moves("before the last byte of €", 9, [1, 1]),
        ill("inside é, no length", 5, [0, 0]),
        ill("inside é, 0 of a rule that is not live", 5, [1, 0]),
        ill("inside é, 0 of the live rule", 5, [0, 1]),
        ill("from inside é into €", 5, [3, 1]),
        ill("from inside é into €, of a rule that is not live", 5, [1, 4]),
        ill("inside é, above the bytes left", 5, [6, 1]),
        ill("inside €, one byte", 8, [1, 1]),
        step("inside é, no rules", &no_rules(), 5, &[], (STOPPED, at(5))),
        step("inside é, no rules and a row", &no_rules(), 5, &[1], (ROW_MISMATCH, at(5))),
        Tried::step("no é in the step's text", &good_sheet(), &at(5), &row(&[0, 0]), (STOPPED, at(5))),
    ]
}
