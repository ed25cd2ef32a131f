//! Hand-made starts and steps, with the answers that 01 and 02 give them.

use super::misreadings::calls::{self, Misreading};
use super::model::{self, Start, Step};
use super::{Run, SELLER, broken, callers, start, step, texts};
use crate::broken_sheets::{self, records};
use crate::sheet::Sheet;
use crate::show;

/// The word and the run afterwards.
type Left = (u64, Run);

#[derive(Clone, Debug)]
enum Call {
    Start { kind: u64, n: u64, text: Vec<u8>, run: Run },
    Step { sheet: Sheet, text: Vec<u8>, run: Run, row: Vec<u8> },
}

impl Call {
    fn answered(&self) -> Result<Left, String> {
        match self {
            Call::Start { kind, n, text, run } => start(Start { kind: *kind, n: *n, text, run }),
            Call::Step { sheet, text, run, row } => step(Step { sheet, text, run, row }),
        }
    }

    fn misread(&self, wrong: Misreading) -> Left {
        match self {
            Call::Start { kind, n, text, run } => model::start(Start { kind: *kind, n: *n, text, run }, Some(wrong)),
            Call::Step { sheet, text, run, row } => model::step(Step { sheet, text, run, row }, Some(wrong)),
        }
    }
}

/// A call and what it gives.
pub struct Tried {
    what: String,
    call: Call,
    left: Left,
}

impl Tried {
    /// A seller's.
    pub fn start(n: u64, text: &[u8], stack_length: usize, number: u64) -> Tried {
        Tried::start_of(SELLER, n, text, stack_length, number)
    }

    /// Over a run without meaning. A start that is not refused begins it.
    pub fn start_of(kind: u64, n: u64, text: &[u8], stack_length: usize, number: u64) -> Tried {
        let run = Run { numbers: [9, 99, 0, 65_535, 7], stack: vec![0xa5; stack_length] };
        let mut after = run.clone();
        if number == 0 {
            after.numbers = [n as u16, 0, 1, 0, kind as u16];
            after.stack[..2].fill(0);
        }
        let what = format!("start of kind {kind} and {n} on {}, stack of {stack_length} bytes", show::source(text));
        Tried { what, call: Call::Start { kind, n, text: text.to_vec(), run }, left: (number, after) }
    }

    /// On a text of n letters.
    pub fn step(what: &str, sheet: &Sheet, run: &Run, row: &[u8], left: Left) -> Tried {
        let text = letters(run.numbers[0].into());
        Tried::step_on(&text, what, sheet, run, row, left)
    }

    pub fn step_on(text: &[u8], what: &str, sheet: &Sheet, run: &Run, row: &[u8], left: Left) -> Tried {
        let call = Call::Step { sheet: sheet.clone(), text: text.to_vec(), run: run.clone(), row: row.to_vec() };
        Tried { what: what.to_string(), call, left }
    }
}

/// Tries all, and whether they would notice the misreadings that the machine cannot show.
pub fn check() -> Result<(), String> {
    let all: Vec<Tried> = [broken::tried(), texts::tried(), callers::tried()].into_iter().flatten().collect();
    for Tried { what, call, left } in &all {
        let answered = call.answered().map_err(|told| format!("{what}: {told}"))?;
        if answered != *left {
            return Err(format!("{what}: the calls have {answered:?}, and by hand it is {left:?}"));
        }
    }
    println!("{} hand-made starts and steps: expected answers.", all.len());
    callers::whole_runs()?;
    println!("3 whole runs by both kinds of caller, and 2 whose kind is changed by hand: expected answers.");
    let mut unnoticed: Vec<Misreading> = calls::ALL.iter().map(|(misreading, _)| *misreading).collect();
    unnoticed.retain(|wrong| all.iter().all(|tried| tried.call.misread(*wrong) == tried.left));
    show::all_noticed("callers, texts and positions", calls::ALL.len(), &unnoticed)
}

pub fn letters(bytes: usize) -> Vec<u8> {
    vec![b'a'; bytes]
}

pub fn row(lengths: &[u16]) -> Vec<u8> {
    records(lengths)
}

/// A seller's, of an entry of 10 bytes, in state 0, with room for one more id than is in use, and bytes behind it that
/// are no declared id.
pub fn good() -> Run {
    let mut stack = records(&[0, 1, 0]);
    stack.resize(22, 0xff);
    Run { numbers: [10, 4, 3, 2, SELLER as u16], stack }
}

/// The good run with another n, position, depth and moves.
pub fn with_numbers([n, position, depth, moves]: [u16; 4]) -> Run {
    Run { numbers: [n, position, depth, moves, SELLER as u16], ..good() }
}

/// The good run in state 1, where rule 1 is live and rule 0 is not.
pub fn in_state_1() -> Run {
    let mut run = good();
    run.numbers[2] = 2;
    run
}

/// Rule 0 has the id 9, no list and no operation; rule 1 has no id and is live in state 1.
pub fn good_sheet() -> Sheet {
    broken_sheets::good()
}

pub fn no_rules() -> Sheet {
    let mut sheet = good_sheet();
    sheet.counts[1] = 0;
    sheet
}

/// By so many bytes, without an operation.
pub fn moved(run: &Run, length: u16) -> Run {
    let mut run = run.clone();
    run.numbers[1] += length;
    run.numbers[3] += 1;
    run
}
