//! `compare run`: the expected answers, and our library's beside them.

use crate::case::{Answer, Case};
use crate::generators::{self, Generator};
use crate::oracle::{self, Finding};
use crate::show;
use crate::shrink::shrink;
use crate::side::Side;
use std::time::{Duration, Instant};

pub struct Options {
    pub generator: Generator,
    pub seed: u64,
    pub first: u64,
    pub cases: u64,
}

/// Why a case is not equal.
enum Trouble {
    Finding(Finding),
    Unequal { expected: Box<Answer>, got: Box<Answer> },
}

/// Compares all cases; the first difference is shrunk and told.
pub fn run(options: &Options, side: Option<&dyn Side>) -> Result<(), String> {
    let mut progress = Progress::new(options.cases);
    let mut answers = [0; NUMBERS];
    for done in 0..options.cases {
        let case = generators::case(options.generator, options.seed, options.first + done);
        let Ok(answer) = check(&case, side) else {
            let number = options.first + done;
            return Err(format!("Case {number} of seed {} is not equal.\n{}", options.seed, told(case, side)));
        };
        answers[answer.number() as usize] += 1;
        progress.show(done + 1);
    }
    println!("Answers by number: {}.", by_number(&answers));
    let compared = match side {
        Some(side) => format!("{} and the original gave equal answers", side.name()),
        None => "the original and the model of 01 agreed, and the original never panicked".to_string(),
    };
    println!(
        "{} cases: {compared} ({:.1} seconds, {:?}, seed {}, {}).",
        show::number(options.cases),
        progress.start.elapsed().as_secs_f64(),
        options.generator,
        options.seed,
        original::ENGINE
    );
    Ok(())
}

/// Accepted, and the five refusals.
const NUMBERS: usize = 6;

fn by_number(answers: &[u64; NUMBERS]) -> String {
    let texts: Vec<String> =
        answers.iter().enumerate().map(|(number, count)| format!("{number}: {}", show::number(*count))).collect();
    texts.join("; ")
}

/// The expected answer, if the side gives it too.
fn check(case: &Case, side: Option<&dyn Side>) -> Result<Answer, Trouble> {
    let expected = oracle::expected(case).map_err(Trouble::Finding)?;
    let Some(side) = side else { return Ok(expected) };
    let got = side.parse(case);
    if got == expected {
        return Ok(expected);
    }
    Err(Trouble::Unequal { expected: Box::new(expected), got: Box::new(got) })
}

/// Makes the case small and prints both sides.
fn told(case: Case, side: Option<&dyn Side>) -> String {
    eprintln!("A case is not equal; it is made smaller now.");
    let is_finding = |case: &Case| matches!(check(case, side), Err(Trouble::Finding(_)));
    let finding = is_finding(&case);
    let small =
        shrink(case, |case| if finding { is_finding(case) } else { check(case, side).is_err() && !is_finding(case) });
    let answers = match check(&small, side) {
        Ok(_) => "It is equal when it is run again.".to_string(),
        Err(Trouble::Finding(finding)) => show::finding(&finding),
        Err(Trouble::Unequal { expected, got }) => {
            let name = side.map_or(String::new(), Side::name);
            show::side_by_side("expected", &expected, &name, &got)
        }
    };
    format!("Made small:\n{}\n{answers}", show::case(&small))
}

/// A line on standard error every few seconds.
struct Progress {
    start: Instant,
    shown: Instant,
    cases: u64,
}

impl Progress {
    fn new(cases: u64) -> Progress {
        let now = Instant::now();
        Progress { start: now, shown: now, cases }
    }

    fn show(&mut self, done: u64) {
        if self.shown.elapsed() > Duration::from_secs(5) {
            self.shown = Instant::now();
            let seconds = self.start.elapsed().as_secs();
            eprintln!("{} of {} cases equal after {seconds} seconds", show::number(done), show::number(self.cases));
        }
    }
}
