//! Starts and steps at every edge of 01's conditions, on texts of n letters.

use super::by_hand::{Tried, good, good_sheet, in_state_1, letters, moved, no_rules, row, with_numbers};
use super::{Run, token};
use crate::answers::{BROKEN_RUN, BROKEN_SHEET, DONE, ROW_MISMATCH, SKIP, START_REFUSED, STOPPED, UNLINKED};
use crate::broken_sheets::{self, cut, records, set};

pub fn tried() -> Vec<Tried> {
    [starts(), sheets(), runs(), rows(), moves(), orders()].into_iter().flatten().collect()
}

fn starts() -> Vec<Tried> {
    let tried = [
        (0, 2, 0),
        (0, 1, START_REFUSED),
        (0, 0, START_REFUSED),
        (1, 4, 0),
        (1, 3, START_REFUSED),
        (4_096, 8_194, 0),
        (4_096, 8_193, START_REFUSED),
        (4_097, 8_196, START_REFUSED),
        (4_097, 100_000, START_REFUSED),
        (65_536, 200_000, START_REFUSED),
        (1 << 32, 100, START_REFUSED),
        (1 << 63, 100, START_REFUSED),
        ((1 << 63) - 1, 100, START_REFUSED),
        (u64::MAX, 100, START_REFUSED),
    ];
    // of the numbers above no text is as long
    tried.map(|(n, bytes, number)| Tried::start(n, &letters(n.min(65_536) as usize), bytes, number)).into()
}

fn sheets() -> Vec<Tried> {
    let broken = |(what, change): &broken_sheets::Break| {
        let mut sheet = good_sheet();
        change(&mut sheet);
        Tried::step(what, &sheet, &good(), &row(&[1, 0]), (BROKEN_SHEET, good()))
    };
    broken_sheets::SHEETS.iter().map(broken).collect()
}

type Break = (&'static str, fn(&mut Run));

const RUNS: &[Break] = &[
    ("n above 4,096", |run| {
        run.numbers[0] = 4_097;
        run.stack.resize(2 * 4_098, 0);
    }),
    ("n of 65,535", |run| {
        run.numbers[0] = 65_535;
        run.stack.resize(2 * 65_536, 0);
    }),
    ("position above n", |run| run.numbers[1] = 11),
    ("depth 0", |run| run.numbers[2] = 0),
    ("depth above position + 1", |run| {
        run.stack.fill(0);
        run.numbers[2] = 6;
    }),
    ("depth 65,535", |run| run.numbers[2] = 65_535),
    ("moves above position", |run| run.numbers[3] = 5),
    ("a stack of 2 (n + 1) - 1 bytes", |run| cut(&mut run.stack)),
    ("no stack", |run| run.stack.clear()),
    ("undeclared id at the bottom", |run| set(&mut run.stack, 0, 2)),
    ("undeclared id in the middle", |run| set(&mut run.stack, 1, 256)),
    ("undeclared id on top", |run| set(&mut run.stack, 2, 2)),
    ("depth over an id not declared", |run| run.numbers[2] = 4),
    ("at n, depth 0", |run| {
        run.numbers[1] = 10;
        run.numbers[2] = 0;
    }),
];

/// At the edge, but whole.
const WHOLE: &[Break] = &[
    ("as it is", |_| ()),
    ("n of 4,096", |run| {
        run.numbers[0] = 4_096;
        run.stack.resize(2 * 4_097, 0xff);
    }),
    ("depth of position + 1", |run| {
        run.stack.fill(0);
        run.numbers[2] = 5;
    }),
    ("moves of position", |run| run.numbers[3] = 4),
    ("no moves", |run| run.numbers[3] = 0),
    ("a longer stack", |run| run.stack.push(7)),
    ("the id 1", |run| set(&mut run.stack, 0, 1)),
];

fn runs() -> Vec<Tried> {
    let step = |(what, change): &Break, left: fn(&Run) -> (u64, Run)| {
        let mut run = good();
        change(&mut run);
        Tried::step(what, &good_sheet(), &run, &row(&[1, 0]), left(&run))
    };
    let broken = RUNS.iter().map(|run| step(run, |run| (BROKEN_RUN, run.clone())));
    broken.chain(WHOLE.iter().map(|run| step(run, |run| (token(9, 4, 1), moved(run, 1))))).collect()
}

fn rows() -> Vec<Tried> {
    let (run, s) = (good(), in_state_1());
    let of = |what, row: &[u8], left| Tried::step(what, &good_sheet(), &run, row, left);
    let of_s = |what, row: &[u8], left| Tried::step(what, &good_sheet(), &s, row, left);
    let without = |what, row: &[u8], left| Tried::step(what, &no_rules(), &run, row, left);
    let ill = |what, row: &[u8]| of(what, row, (ROW_MISMATCH, run.clone()));
    vec![
        ill("no row", &[]),
        ill("one length", &row(&[1])),
        ill("a byte less", &[1, 0, 0]),
        ill("a byte more", &[1, 0, 0, 0, 0]),
        ill("a length more", &row(&[1, 0, 0])),
        ill("a length above the bytes left", &row(&[7, 0])),
        ill("a length above the bytes left, of a rule that is not live", &row(&[1, 7])),
        ill("a length of 65,535", &row(&[65_535, 0])),
        ill("a length whose sum with the position passes 65,535", &row(&[65_533, 0])),
        of("all bytes left", &row(&[6, 6]), (token(9, 4, 6), moved(&run, 6))),
        of("no length", &row(&[0, 0]), (STOPPED, run.clone())),
        of("no live rule has one", &row(&[0, 6]), (STOPPED, run.clone())),
        of_s("rule 1 has no id", &row(&[0, 6]), (UNLINKED, s.clone())),
        of_s("rule 0 is not live in state 1", &row(&[6, 0]), (STOPPED, s.clone())),
        without("no rules", &[], (STOPPED, run.clone())),
        without("no rules and a row", &row(&[0]), (ROW_MISMATCH, run.clone())),
    ]
}

/// Operation, target, depth before, depth after, the first ids after.
type Move = (u16, u16, u16, u16, [u16; 4]);

const MOVES: &[Move] = &[
    (0, 1, 3, 3, [0, 1, 0, 65_535]),
    (1, 1, 3, 1, [1, 1, 0, 65_535]),
    (1, 0, 3, 1, [0, 1, 0, 65_535]),
    (2, 1, 3, 4, [0, 1, 0, 1]),
    (2, 0, 3, 4, [0, 1, 0, 0]),
    (3, 1, 3, 2, [0, 1, 0, 65_535]),
    (3, 0, 3, 2, [0, 1, 0, 65_535]),
    (3, 1, 1, 1, [0, 1, 0, 65_535]),
];

/// Rule 0 without a name and with the operation and target, from a run of depth 3.
fn moves() -> Vec<Tried> {
    let step = |(operation, target, depth, depth_after, ids): &Move| {
        let mut sheet = good_sheet();
        for (field, value) in [(0, 0), (1, 0), (2, 0), (12, *operation), (13, *target)] {
            set(&mut sheet.areas[1], field, value);
        }
        let mut before = good();
        before.numbers[2] = *depth;
        let mut after = moved(&before, 3);
        after.numbers[2] = *depth_after;
        after.stack[..8].copy_from_slice(&records(ids));
        let what = format!("operation {operation} with target {target} at depth {depth}");
        Tried::step(&what, &sheet, &before, &row(&[3, 0]), (SKIP, after))
    };
    MOVES.iter().map(step).chain([pop_of_the_last()]).collect()
}

/// The bottom alone, which is not state 0.
fn pop_of_the_last() -> Tried {
    let mut sheet = good_sheet();
    set(&mut sheet.areas[1], 14, 1);
    let mut before = good();
    set(&mut before.stack, 0, 1);
    before.numbers[2] = 1;
    let mut after = moved(&before, 1);
    set(&mut after.stack, 0, 0);
    Tried::step("pop of the last", &sheet, &before, &row(&[6, 1]), (token(0, 4, 1), after))
}

/// 6, 9, 'done', 10. Where 12 comes is in texts.rs.
fn orders() -> Vec<Tried> {
    let mut sheet = good_sheet();
    sheet.counts[0] = 0;
    let broken = with_numbers([10, 4, 3, 5]);
    let broken_at_the_end = with_numbers([10, 10, 3, 11]);
    let done = |what, numbers, row: &[u8]| {
        let run = with_numbers(numbers);
        Tried::step(what, &good_sheet(), &run, row, (DONE, run.clone()))
    };
    let at_the_end = [10, 10, 3, 10];
    vec![
        Tried::step("6 before 9", &sheet, &broken, &[], (BROKEN_SHEET, broken.clone())),
        Tried::step("9 before 10", &good_sheet(), &broken, &[], (BROKEN_RUN, broken.clone())),
        Tried::step("9 before 'done'", &good_sheet(), &broken_at_the_end, &[], (BROKEN_RUN, broken_at_the_end.clone())),
        done("'done' before 10: no row", at_the_end, &[]),
        done("'done' before 10: a row", at_the_end, &row(&[0, 0])),
        done("'done' before 10: a length past n", at_the_end, &row(&[1, 0])),
        done("an entry of no bytes", [0, 0, 1, 0], &row(&[0, 0])),
    ]
}
