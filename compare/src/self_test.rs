//! `compare self-test`: every deliberate misreading of 01 must differ from the expected answer in some generated case.

use crate::case::Case;
use crate::generators::{self, Generator};
use crate::misreadings::{ALL, Misreading};
use crate::model::Reading;
use crate::oracle::{self, Finding};
use crate::show;
use crate::side::{Misread, Side};
use std::time::Instant;

/// So many cases are run in any event, to see which misreadings the original itself contradicts.
const FEWEST_CASES: u64 = 45_000;

/// How a misreading was told from the right reading.
#[derive(Clone, Default)]
struct Notice {
    /// The first case with another answer, and the length of its source.
    first: Option<(u64, usize)>,
    /// What the original holds is something else; otherwise only what 01 adds to it tells.
    contradicts_original: bool,
}

/// Prints a line for each misreading if the list is wanted.
pub fn self_test(seed: u64, most_cases: u64, list: bool) -> Result<(), String> {
    let start = Instant::now();
    let mut notices = vec![Notice::default(); ALL.len()];
    let mut cases = 0;
    while cases < most_cases && (cases < FEWEST_CASES || notices.iter().any(|notice| notice.first.is_none())) {
        let case = generators::case(Generator::Mix, seed, cases);
        try_all(&case, cases, &mut notices)
            .map_err(|finding| format!("Case {cases}:\n{}\n{}", show::case(&case), show::finding(&finding)))?;
        cases += 1;
    }
    if list {
        print_list(&notices);
    }
    let unnoticed = ALL.iter().zip(&notices).filter(|(_, notice)| notice.first.is_none());
    let missed: Vec<Misreading> = unnoticed.map(|((misreading, _), _)| *misreading).collect();
    if !missed.is_empty() {
        return Err(format!(
            "{} of {} misreadings were not noticed in {} cases: {missed:?}",
            missed.len(),
            ALL.len(),
            show::number(cases)
        ));
    }
    println!(
        "All {} misreadings were noticed, the last at case {}; {} of them contradict what the original holds ({:.1} seconds, seed {seed}).",
        ALL.len(),
        show::number(notices.iter().filter_map(|notice| notice.first).map(|(case, _)| case).max().unwrap_or(0)),
        notices.iter().filter(|notice| notice.contradicts_original).count(),
        start.elapsed().as_secs_f64()
    );
    Ok(())
}

fn try_all(case: &Case, number: u64, notices: &mut [Notice]) -> Result<(), Finding> {
    let expected = oracle::expected(case)?;
    let held = oracle::held(case)?;
    for ((misreading, _), notice) in ALL.iter().zip(notices) {
        if notice.first.is_none() && Misread(*misreading).parse(case) != expected {
            notice.first = Some((number, case.source.len()));
        }
        if !notice.contradicts_original {
            let difference = oracle::difference(case, held.clone(), Reading::wrong(*misreading));
            notice.contradicts_original = difference.is_some();
        }
    }
    Ok(())
}

fn print_list(notices: &[Notice]) {
    for ((misreading, words), notice) in ALL.iter().zip(notices) {
        let told_by = if notice.contradicts_original { "original" } else { "01 alone" };
        match notice.first {
            Some((case, length)) => println!(
                "case {:>7}, {:>6} bytes, {told_by}: {misreading:?}: {words}",
                show::number(case),
                show::number(length as u64)
            ),
            None => println!("NOT NOTICED: {misreading:?}: {words}"),
        }
    }
}
