//! `compare step`: the start call and the step call against the original's lexer loop, against the run machine of 01,
//! and against 01's and 02's words for what neither has: broken sheets, broken runs, poor starts, unknown callers, texts
//! that do not fit the entry and positions off an edge.

mod broken;
mod by_hand;
mod callers;
mod cases;
mod machine;
mod misreadings;
mod model;
mod texts;

use crate::answers::{self, ACCEPTED, BROKEN_RUN, ROW_MISMATCH, SKIP, STOPPED, TEXT_MISMATCH, TOKEN, UNLINKED, word};
use crate::case::{FLAG_COMMENTS, FLAG_POSIX_ESCAPES};
use crate::link;
use crate::model::{self as parse_model, Reading};
use crate::oracle;
use crate::random::Random;
use crate::sheet::{Sheet, field};
use crate::show;
use cases::Case;
use machine::Machine;
use misreadings::Misreading;
pub use model::{Start, Step};
use original::{Definition, Lexed};
use std::collections::BTreeMap;
use std::time::Instant;

/// The kinds of caller.
pub const SELLER: u64 = 0;
pub const KIOSK: u64 = 1;

/// What the start call and the step call change.
#[derive(Clone, Debug, PartialEq, Eq)]
pub struct Run {
    /// n, position, depth, moves and the kind of caller.
    pub numbers: [u16; 5],
    pub stack: Vec<u8>,
}

impl Run {
    fn position(&self) -> usize {
        self.numbers[1] as usize
    }

    /// The state on top of the stack.
    fn current(&self) -> u16 {
        field(&self.stack, 2 * (self.numbers[2] as usize - 1))
    }
}

/// The word of a token.
fn token(id: u16, start: u16, length: u16) -> u64 {
    word(TOKEN, &[id, start, length].map(usize::from))
}

pub fn run(seed: u64, first: u64, cases: u64) -> Result<(), String> {
    let start = Instant::now();
    by_hand::check()?;
    let mut tally = Tally::default();
    let mut unnoticed: Vec<Misreading> = misreadings::ALL.iter().map(|(misreading, _)| *misreading).collect();
    for index in first..first + cases {
        let mut random = Random::new(seed ^ 0x7275_6e73, index);
        let case = cases::case(seed, index);
        let told = |what: String| format!("Step case {index} of seed {seed}: {what}\n{}", shown(&case));
        let trace = follow(&case, &mut random, &mut tally).map_err(told)?;
        against_original(&case, &trace, &mut random, &mut tally).map_err(told)?;
        unnoticed.retain(|misreading| !notices(&case, &trace, *misreading));
    }
    println!("{} ({:.1} seconds, seed {seed}).", tally.report(cases), start.elapsed().as_secs_f64());
    show::all_noticed("the run machine", misreadings::ALL.len(), &unnoticed)
}

#[derive(Default)]
struct Tally {
    /// How often the start call and the step call gave each number.
    starts: BTreeMap<u64, u64>,
    answers: BTreeMap<u64, u64>,
    deepest: u16,
    /// Of a seller's run and of a kiosk's.
    most_moves: [u16; 2],
    /// Rows that cut a character, by the winner's length, by another live rule's, by that of a rule that is not live.
    cuts: [u64; 3],
    /// Runs that nothing but their kind or its limit makes 9.
    broken_by_kind: u64,
    /// Where the original's loop was stopped to see its position and state.
    stops: u64,
}

impl Tally {
    fn report(&self, cases: u64) -> String {
        let whose = if cfg!(feature = "ours") { "Troymantle's" } else { "the model's" };
        format!(
            "{} runs, {} step calls: {whose} tokens, skips and ends are those of the original's loop, which was asked \
             for its position and state at {} places; every answer, number and stack byte is that of the run machine, \
             or of 01's and 02's words where a call was damaged. {} rows cut a character by the winner's length, {} by \
             another live rule's, {} by that of a rule that is not live. {} runs are broken by the kind of caller or its \
             limit alone. At most {} moves of a seller's run and {} of a kiosk's, and a depth of {}. Answers of \
             starts: {}. Answers of steps: {}",
            show::number(cases),
            show::number(self.answers.values().sum()),
            show::number(self.stops),
            show::number(self.cuts[0]),
            show::number(self.cuts[1]),
            show::number(self.cuts[2]),
            show::number(self.broken_by_kind),
            show::number(self.most_moves[0] as u64),
            show::number(self.most_moves[1] as u64),
            show::number(self.deepest as u64),
            show::tally(&self.starts),
            show::tally(&self.answers)
        )
    }
}

/// What the start call answers and leaves by the model, and by ours too.
fn start(call: Start) -> Result<(u64, Run), String> {
    let Start { kind, n, text, run } = call;
    let told = || format!("start of kind {kind} and {n} on {} over {run:?}", show::source(text));
    agreed(model::start(call, None), ours::start(call), told)
}

fn step(call: Step) -> Result<(u64, Run), String> {
    agreed(model::step(call, None), ours::step(call), || format!("{call:?}"))
}

type Left = (u64, Run);

fn agreed(expected: Left, got: Option<Left>, call: impl Fn() -> String) -> Result<Left, String> {
    match got {
        Some(got) if got != expected => Err(format!("expected {expected:?}\ngot {got:?}\nof {}", call())),
        _ => Ok(expected),
    }
}

/// Parsed and linked.
fn sheet(case: &Case) -> Result<Sheet, String> {
    let answer = parse_model::answer(&case.file, Reading::RIGHT);
    if answer.word != ACCEPTED {
        return Err(format!("the file is refused by {}", answer.word));
    }
    if ours::parse(&case.file).is_some_and(|got| got != answer) {
        return Err("our library parses the file otherwise".to_string());
    }
    let call = link::call(Sheet::new(case.file.source.clone(), answer), &case.map);
    let left = link::against_model(&call)?;
    Ok(link::linked(&call.sheet, &left))
}

/// What a run went through with the rows of its positions, as far as the original's loop goes.
struct Trace {
    lexed: Vec<Lexed>,
    visits: Vec<Visit>,
    /// All rows in turn, the refused ones too, and the answers.
    calls: Vec<(Vec<u8>, u64)>,
}

struct Visit {
    position: usize,
    state: usize,
    /// How many tokens there were before.
    tokens: usize,
}

/// A run under way, beside the machine.
struct Follower<'a> {
    case: &'a Case,
    sheet: Sheet,
    machine: Machine,
    run: Run,
    calls: Vec<(Vec<u8>, u64)>,
}

impl Follower<'_> {
    /// A step on the text of the start.
    fn call<'a>(&'a self, row: &'a [u8]) -> Step<'a> {
        Step { sheet: &self.sheet, text: self.case.text.as_bytes(), run: &self.run, row }
    }

    /// What the run has not covered.
    fn rest(&self) -> &str {
        &self.case.text[self.run.position()..]
    }

    fn rules(&self) -> usize {
        self.sheet.counts[1] as usize
    }

    /// The run and the machine take a row alike.
    fn take(&mut self, row: Vec<u8>, tally: &mut Tally) -> Result<u64, String> {
        let (word, run) = step(self.call(&row))?;
        let expected = self.machine.take(&row);
        if word != expected {
            return Err(format!("the machine answers {expected}, the step {word} to {row:?} at {:?}", self.run));
        }
        self.run = run;
        self.calls.push((row, word));
        *tally.answers.entry(answers::number(word)).or_default() += 1;
        tally.deepest = tally.deepest.max(self.run.numbers[2]);
        let most_moves = &mut tally.most_moves[self.case.kind as usize];
        *most_moves = (*most_moves).max(self.run.numbers[3]);
        self.compare()?;
        Ok(answers::number(word))
    }

    fn compare(&self) -> Result<(), String> {
        let expected = run_of(&self.machine, self.case);
        if self.run != expected {
            return Err(format!("the machine has {expected:?}, the run is {:?} after {:?}", self.run, self.calls));
        }
        let moves = u64::from(self.run.numbers[3]);
        match model::limit(self.case.kind) {
            Some(limit) if moves <= limit => Ok(()),
            limit => Err(format!("{moves} moves are made, and the limit is {limit:?}")),
        }
    }

    fn take_ill_fitting(&mut self, random: &mut Random, tally: &mut Tally) -> Result<(), String> {
        let row = cases::ill_fitting(random, &vec![0; self.rules()], self.rest().len());
        self.take(row, tally).map(drop)
    }

    /// A row that fits but for a length that cuts a character.
    fn take_cutting(&mut self, random: &mut Random, row: &[usize], tally: &mut Tally) -> Result<(), String> {
        let Some((rule, row)) = cases::cutting(random, row, self.rest()) else { return Ok(()) };
        let row = cases::bytes(&row);
        let call = self.call(&row);
        let kind = match call.winner() {
            Some((winner, _)) if winner == rule => 0,
            _ if call.is_live(&self.sheet.rules()[rule]) => 1,
            _ => 2,
        };
        tally.cuts[kind] += 1;
        match self.take(row, tally)? {
            ROW_MISMATCH => Ok(()),
            number => Err(format!("a row that cuts a character gets {number}")),
        }
    }

    /// Calls that leave the run itself alone: a damaged one, one on another text and one at a position off an edge.
    fn try_others(&self, random: &mut Random, row: &[u8], tally: &mut Tally) -> Result<(), String> {
        let text = self.case.text.as_bytes();
        let taken = (self.sheet.clone(), text.to_vec(), self.run.clone(), row.to_vec());
        let (sheet, damaged_text, run, damaged_row) = cases::damaged(random, taken);
        tally.step(Step { sheet: &sheet, text: &damaged_text, run: &run, row: &damaged_row })?;
        self.try_text(&cases::other_text(random, text), row, tally)?;
        if let Some((at, row)) = cases::off_an_edge(random, self.rules(), self.rest()) {
            let mut run = self.run.clone();
            run.numbers[1] += at as u16;
            tally.step(Step { run: &run, ..self.call(&cases::bytes(&row)) })?;
        }
        Ok(())
    }

    fn try_text(&self, text: &[u8], row: &[u8], tally: &mut Tally) -> Result<(), String> {
        let number = tally.step(Step { text, ..self.call(row) })?;
        let fits = text.len() == self.case.text.len() && std::str::from_utf8(text).is_ok();
        if fits == (number == TEXT_MISMATCH) {
            return Err(format!("a step on {} gets {number}", show::source(text)));
        }
        Ok(())
    }
}

impl Tally {
    fn start(&mut self, call: Start) -> Result<u64, String> {
        let (word, _) = start(call)?;
        *self.starts.entry(answers::number(word)).or_default() += 1;
        Ok(word)
    }

    fn step(&mut self, call: Step) -> Result<u64, String> {
        let number = answers::number(step(call)?.0);
        *self.answers.entry(number).or_default() += 1;
        self.broken_by_kind += u64::from(number == BROKEN_RUN && !call.is_broken_otherwise(None));
        Ok(number)
    }
}

/// The run and the machine of a case, behind some starts that are refused or have another n or text.
fn begun<'a>(case: &'a Case, random: &mut Random, tally: &mut Tally) -> Result<Follower<'a>, String> {
    for _ in 0..2 {
        let (kind, n, text, run) = cases::damaged_start(random, case);
        tally.start(Start { kind, n, text: &text, run: &run })?;
    }
    for kind in [SELLER, KIOSK] {
        let word = tally.start(Start { kind, ..whole_start(case) })?;
        if (word == ACCEPTED) != machine(case, kind, None).is_some() {
            return Err(format!("a start of kind {kind} is answered by {word}"));
        }
    }
    let (_, run) = start(whole_start(case))?;
    let machine = machine(case, case.kind, None).ok_or("the entry is longer than its limit")?;
    let follower = Follower { case, sheet: sheet(case)?, machine, run, calls: vec![] };
    follower.compare()?;
    Ok(follower)
}

fn whole_start(case: &Case) -> Start<'_> {
    Start { kind: case.kind, n: case.text.len() as u64, text: case.text.as_bytes(), run: &case.before }
}

/// The machine with the limit of a kind.
fn machine(case: &Case, kind: u64, wrong: Option<Misreading>) -> Option<Machine> {
    Machine::new(model::limit(kind)?, case.source(), &case.records(), &case.map, &case.text, wrong)
}

/// As the machine has it, and of the kind of the start.
fn run_of(machine: &Machine, case: &Case) -> Run {
    let [n, position, depth, moves] = machine.numbers();
    Run { numbers: [n, position, depth, moves, case.kind as u16], stack: machine.stack(&case.before.stack) }
}

fn follow(case: &Case, random: &mut Random, tally: &mut Tally) -> Result<Trace, String> {
    let mut follower = begun(case, random, tally)?;
    let mut lexed = vec![];
    let mut visits = vec![];
    let extras = if case.text.len() > 1_000 { 1 } else { 20 };
    while follower.run.position() < case.text.len() {
        let row = &case.rows[follower.run.position()];
        if random.percent(extras) {
            follower.take_ill_fitting(random, tally)?;
        }
        if random.percent(extras) {
            follower.take_cutting(random, row, tally)?;
        }
        let row = cases::bytes(row);
        if random.percent(extras) {
            follower.try_others(random, &row, tally)?;
        }
        let (position, state) = (follower.run.position(), follower.run.current() as usize);
        visits.push(Visit { position, state, tokens: lexed.len() });
        match follower.take(row, tally)? {
            TOKEN => {
                let word = follower.calls[follower.calls.len() - 1].1;
                let [_, id, start, length] = answers::fields(word);
                lexed.push(Lexed::Token { id, start: start as usize, length: length as usize });
            }
            STOPPED => {
                lexed.push(Lexed::Stopped { at: position, state });
                break;
            }
            UNLINKED => {
                lexed.push(Lexed::Unlinked { at: position });
                break;
            }
            SKIP => {}
            number => return Err(format!("a row that fits gets {number} at {position}")),
        }
    }
    go_on(&mut follower, random, tally)?;
    Ok(Trace { lexed, visits, calls: follower.calls })
}

/// Where the original's loop has ended, the run still answers, and after 'stopped' or 'unlinked' another row may move
/// it.
fn go_on(follower: &mut Follower, random: &mut Random, tally: &mut Tally) -> Result<(), String> {
    for _ in 0..3 {
        if random.percent(40) {
            follower.take_ill_fitting(random, tally)?;
        }
        let row = cases::other_row(random, follower.rules(), follower.rest());
        follower.try_others(random, &row, tally)?;
        follower.take(row, tally)?;
    }
    Ok(())
}

/// The original's loop has the same tokens and the same end. A row of zeros stops it wherever the run came, in its
/// state.
fn against_original(case: &Case, trace: &Trace, random: &mut Random, tally: &mut Tally) -> Result<(), String> {
    let flag = |flag: u64| case.file.flags & flag != 0;
    let definition = Definition::new(case.source(), flag(FLAG_COMMENTS), flag(FLAG_POSIX_ESCAPES), &case.file.verdicts);
    let mut definition = definition.ok_or("the file has faults by the original")?;
    let entries: Vec<(&str, u16)> = case.map.iter().map(|(name, id)| (name.as_str(), *id)).collect();
    definition.link(&entries);
    expect_lexed(&definition, &case.text, &case.rows, &trace.lexed)?;
    let chance = if trace.visits.len() > 100 { 1 } else { 100 };
    let mut rows = case.rows.clone();
    for visit in &trace.visits {
        if !random.percent(chance) {
            continue;
        }
        let zeros = vec![0; rows[visit.position].len()];
        let kept = std::mem::replace(&mut rows[visit.position], zeros);
        let mut expected = trace.lexed[..visit.tokens].to_vec();
        expected.push(Lexed::Stopped { at: visit.position, state: visit.state });
        expect_lexed(&definition, &case.text, &rows, &expected)?;
        rows[visit.position] = kept;
        tally.stops += 1;
    }
    Ok(())
}

fn expect_lexed(definition: &Definition, text: &str, rows: &[Vec<usize>], expected: &[Lexed]) -> Result<(), String> {
    let lexed = oracle::caught(|| definition.run(text, rows))?;
    if lexed == expected {
        Ok(())
    } else {
        Err(format!("the original has {lexed:?}\nthe run {expected:?}\nwith the rows {rows:?}"))
    }
}

/// Whether the misreading has another limit of one kind, or gives another answer or leaves another run somewhere.
fn notices(case: &Case, trace: &Trace, misreading: Misreading) -> bool {
    let differ = |(mut right, mut wrong): (Machine, Machine)| {
        trace.calls.iter().any(|(row, word)| {
            right.take(row);
            wrong.take(row) != *word || run_of(&wrong, case) != run_of(&right, case)
        })
    };
    [SELLER, KIOSK].into_iter().any(|kind| match (machine(case, kind, None), machine(case, kind, Some(misreading))) {
        (Some(right), Some(wrong)) => differ((right, wrong)),
        (right, wrong) => right.is_some() != wrong.is_some(),
    })
}

fn shown(case: &Case) -> String {
    format!("{:?}\nof the file\n{}", case, case.source())
}

#[cfg(feature = "ours")]
mod ours {
    use super::{Run, Start, Step};
    use crate::case::{Answer, Case};
    use crate::guarded;

    pub fn parse(case: &Case) -> Option<Answer> {
        Some(guarded::parse(case))
    }

    pub fn start(call: Start) -> Option<(u64, Run)> {
        Some(guarded::start(call))
    }

    pub fn step(call: Step) -> Option<(u64, Run)> {
        Some(guarded::step(call))
    }
}

#[cfg(not(feature = "ours"))]
mod ours {
    use super::{Run, Start, Step};
    use crate::case::{Answer, Case};

    pub fn parse(_: &Case) -> Option<Answer> {
        None
    }

    pub fn start(_: Start) -> Option<(u64, Run)> {
        None
    }

    pub fn step(_: Step) -> Option<(u64, Run)> {
        None
    }
}
