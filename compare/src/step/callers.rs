//! Starts and steps at every edge of 02's conditions, 3/13: kinds of caller, the limit of each, and whole runs of both.

use super::by_hand::{Tried, good, good_sheet, letters, moved, row};
use super::{KIOSK, Run, SELLER, Start, Step, start, step, token};
use crate::answers::{ACCEPTED, BROKEN_RUN, BROKEN_SHEET, DONE, SKIP, START_REFUSED, TEXT_MISMATCH, UNKNOWN_CALLER};
use crate::broken_sheets::{cut, set};
use crate::sheet::Sheet;

pub fn tried() -> Vec<Tried> {
    [starts(), kiosks(), unknown_callers(), runs(), unknown_kinds(), orders()].into_iter().flatten().collect()
}

/// A kind, the bytes of an entry, and whether they are within the kind's limit.
type Entry = (u64, u16, bool);

const ENTRIES: [Entry; 10] = [
    (SELLER, 511, true),
    (SELLER, 512, true),
    (SELLER, 513, true),
    (SELLER, 4_096, true),
    (SELLER, 4_097, false),
    (KIOSK, 511, true),
    (KIOSK, 512, true),
    (KIOSK, 513, false),
    (KIOSK, 4_096, false),
    (KIOSK, 4_097, false),
];

/// On a stack that is just long enough, and on one that is a byte short.
fn starts() -> Vec<Tried> {
    let starts = |(kind, n, fits): Entry| {
        let (text, room) = (letters(n.into()), 2 * (usize::from(n) + 1));
        [
            Tried::start_of(kind, n.into(), &text, room, if fits { ACCEPTED } else { START_REFUSED }),
            Tried::start_of(kind, n.into(), &text, room - 1, START_REFUSED),
        ]
    };
    ENTRIES.into_iter().flat_map(starts).collect()
}

fn kiosks() -> Vec<Tried> {
    let tried = [
        (0, "".to_string(), ACCEPTED),
        // n counts bytes and not characters
        (512, "é".repeat(256), ACCEPTED),
        (1_024, "é".repeat(512), START_REFUSED),
        // 8 comes before 12
        (512, "a".repeat(511), TEXT_MISMATCH),
        (512, "a".repeat(513), TEXT_MISMATCH),
        (513, "a".repeat(512), START_REFUSED),
        (65_536 + 512, "a".repeat(512), START_REFUSED),
        ((1 << 32) + 512, "a".repeat(512), START_REFUSED),
        (u64::MAX, "".to_string(), START_REFUSED),
    ];
    tried.map(|(n, text, number)| Tried::start_of(KIOSK, n, text.as_bytes(), 8_194, number)).into()
}

/// Some of them are 0 or 1 in 8, 16 or 32 bits.
const UNKNOWN: [u64; 16] = [
    2,
    3,
    255,
    256,
    257,
    512,
    4_096,
    65_535,
    65_536,
    65_537,
    1 << 32,
    (1 << 32) + 1,
    1 << 63,
    (1 << 63) + 1,
    u64::MAX - 1,
    u64::MAX,
];

/// 13 alone, with 8, with 12 and with both.
fn unknown_callers() -> Vec<Tried> {
    let refused = |kind, n, text: &[u8], stack_length| Tried::start_of(kind, n, text, stack_length, UNKNOWN_CALLER);
    let starts = |kind| {
        [
            refused(kind, 10, &letters(10), 22),
            refused(kind, 10, &letters(10), 21),
            refused(kind, 4_097, &letters(4_097), 8_196),
            refused(kind, 10, &letters(9), 22),
            refused(kind, 10, b"aaaaaaaaa\xc3", 22),
            refused(kind, 10, &letters(9), 21),
            refused(kind, u64::MAX, &[], 0),
        ]
    };
    UNKNOWN.into_iter().flat_map(starts).collect()
}

/// The good run with another kind and n, on a stack that is just long enough.
fn run_of(kind: u16, n: u16) -> Run {
    let mut run = good();
    run.numbers[0] = n;
    run.numbers[4] = kind;
    run.stack.resize(2 * (usize::from(n) + 1), 0xff);
    run
}

fn runs() -> Vec<Tried> {
    let steps = |(kind, n, fits): Entry| {
        let run = run_of(kind as u16, n);
        let mut short = run.clone();
        cut(&mut short.stack);
        let left = if fits { (token(9, 4, 1), moved(&run, 1)) } else { (BROKEN_RUN, run.clone()) };
        let step = |run: &Run, left| {
            let what = format!("kind {kind}, n of {n}, a stack of {} bytes", run.stack.len());
            Tried::step(&what, &good_sheet(), run, &row(&[1, 0]), left)
        };
        [step(&run, left), step(&short, (BROKEN_RUN, short.clone()))]
    };
    ENTRIES.into_iter().flat_map(steps).collect()
}

fn unknown_kinds() -> Vec<Tried> {
    let step = |kind, run: Run| {
        let what = format!("kind {kind}, n of {}", run.numbers[0]);
        Tried::step(&what, &good_sheet(), &run, &row(&[1, 0]), (BROKEN_RUN, run.clone()))
    };
    let steps = |kind| {
        let empty = Run { numbers: [0, 0, 1, 0, kind], stack: vec![0; 2] };
        [step(kind, run_of(kind, 10)), step(kind, empty)]
    };
    [2, 3, 255, 256, 257, 512, 4_096, 65_535].into_iter().flat_map(steps).collect()
}

/// 6, 12, 9, 'done', 10, 'stopped', 'unlinked', where 9 is that of the kind or of its limit.
fn orders() -> Vec<Tried> {
    let mut broken_sheet = good_sheet();
    broken_sheet.counts[0] = 0;
    let fitting = row(&[2, 0]);
    let orders = |run: Run| {
        let [n, _, _, _, kind] = run.numbers;
        let at_the_end = Run { numbers: [n, n, 3, 2, kind], ..run.clone() };
        let in_state_1 = Run { numbers: [n, 4, 2, 2, kind], ..run.clone() };
        let (text, other) = (letters(n.into()), letters(usize::from(n) - 1));
        let bad = [&other[..], b"\xc3"].concat();
        let step = |what, sheet: &Sheet, text: &[u8], run: &Run, row: &[u8], number| {
            let what = format!("kind {kind}, n of {n}: {what}");
            Tried::step_on(text, &what, sheet, run, row, (number, run.clone()))
        };
        let on_good =
            |what, text: &[u8], run: &Run, row: &[u8], number| step(what, &good_sheet(), text, run, row, number);
        [
            step("6 before 9", &broken_sheet, &text, &run, &fitting, BROKEN_SHEET),
            step("6 before 12 and 9", &broken_sheet, &other, &run, &fitting, BROKEN_SHEET),
            on_good("12 before 9, a byte less", &other, &run, &fitting, TEXT_MISMATCH),
            on_good("12 before 9, no UTF-8", &bad, &run, &fitting, TEXT_MISMATCH),
            on_good("12 before 9 and 'done'", &other, &at_the_end, &fitting, TEXT_MISMATCH),
            on_good("9 before 'done'", &text, &at_the_end, &fitting, BROKEN_RUN),
            on_good("9 before 10", &text, &run, &[], BROKEN_RUN),
            on_good("9 before 'stopped'", &text, &run, &row(&[0, 0]), BROKEN_RUN),
            on_good("9 before 'unlinked'", &text, &in_state_1, &row(&[0, 2]), BROKEN_RUN),
        ]
    };
    [run_of(2, 10), run_of(KIOSK as u16, 513)].into_iter().flat_map(orders).collect()
}

/// Runs to their very end, and runs whose kind is changed by hand on the way: a step does not know what it was.
pub fn whole_runs() -> Result<(), String> {
    for (kind, n) in [(KIOSK, 512), (SELLER, 513), (SELLER, 4_096)] {
        let end = one_byte_each(&begun(kind, n)?, n)?;
        let numbers = [n, n, 1, n, kind as u16];
        if end.numbers != numbers {
            return Err(format!("a run of kind {kind} ends with {:?}, and by hand it is {numbers:?}", end.numbers));
        }
        expect(&end, &row(&[1, 0]), (DONE, end.clone()))?;
    }
    let kiosks = one_byte_each(&begun(KIOSK, 512)?, 256)?;
    one_byte_each(&of_kind(SELLER, &kiosks), 256)?;
    let sellers = one_byte_each(&begun(SELLER, 513)?, 256)?;
    let broken = of_kind(KIOSK, &sellers);
    expect(&broken, &row(&[1, 0]), (BROKEN_RUN, broken.clone()))?;
    one_byte_each(&of_kind(SELLER, &broken), 257).map(drop)
}

fn begun(kind: u64, n: u16) -> Result<Run, String> {
    let text = letters(n.into());
    let run = Run { numbers: [7; 5], stack: vec![7; 2 * (text.len() + 1)] };
    match start(Start { kind, n: n.into(), text: &text, run: &run })? {
        (ACCEPTED, run) => Ok(run),
        (word, _) => Err(format!("a start of kind {kind} and {n} is answered by {word}")),
    }
}

fn of_kind(kind: u64, run: &Run) -> Run {
    let mut run = run.clone();
    run.numbers[4] = kind as u16;
    run
}

/// So many tokens and skips in turn.
fn one_byte_each(run: &Run, moves: u16) -> Result<Run, String> {
    let mut run = run.clone();
    for _ in 0..moves {
        let position = run.numbers[1];
        let (lengths, word) = if position.is_multiple_of(2) { ([1, 0], token(9, position, 1)) } else { ([0, 1], SKIP) };
        let after = moved(&run, 1);
        expect(&run, &row(&lengths), (word, after.clone()))?;
        run = after;
    }
    Ok(run)
}

/// On a text of n letters, with a rule 1 that skips in state 0.
fn expect(run: &Run, row: &[u8], left: (u64, Run)) -> Result<(), String> {
    let mut sheet = good_sheet();
    // named, the length of the list, the operation
    for field in [2, 11, 12] {
        set(&mut sheet.areas[1], 14 + field, 0);
    }
    let call = Step { sheet: &sheet, text: &letters(run.numbers[0].into()), run, row };
    match step(call)? {
        answered if answered == left => Ok(()),
        answered => Err(format!("the calls have {answered:?}, and by hand it is {left:?}, of {run:?}")),
    }
}
