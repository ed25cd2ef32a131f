//! The expected answer: the original's, with what it does not keep taken from the model.
//!
//! On every text that the original reads, what the model's offsets select must be what the original holds.

use crate::case::{AREAS, Answer, Case, FLAG_COMMENTS, FLAG_POSIX_ESCAPES, SOURCE_LIMIT};
use crate::model::{self, Reading, Records, Rule, Span};
use original::Held;
use std::any::Any;
use std::panic::{self, AssertUnwindSafe};

/// Why there is no expected answer: a finding about the original or the model, not about our library.
#[derive(Debug)]
pub enum Finding {
    OriginalPanicked(String),
    ModelDiffers(Box<Difference>),
}

#[derive(Debug)]
pub struct Difference {
    pub original: Held,
    /// As the model has it, or why its offsets select nothing.
    pub model: Result<Held, String>,
}

pub fn expected(case: &Case) -> Result<Answer, Finding> {
    let original = held(case)?;
    if let Some(difference) = difference(case, original, Reading::RIGHT) {
        return Err(Finding::ModelDiffers(Box::new(difference)));
    }
    Ok(model::answer(case, Reading::RIGHT))
}

/// What the original holds, where numbers 1 to 3 let the source pass to it.
pub fn held(case: &Case) -> Result<Option<Held>, Finding> {
    text_to_parse(case).map(|text| parse_original(text, case)).transpose()
}

/// What the reading says otherwise than the original.
pub fn difference(case: &Case, original: Option<Held>, reading: Reading) -> Option<Difference> {
    let (text, original) = (text_to_parse(case)?, original?);
    let model = selected(text, &model::records(text, case, reading));
    (model.as_ref() != Ok(&original)).then_some(Difference { original, model })
}

/// The source where numbers 1 to 3 let it pass: the original takes nothing else.
pub fn text_to_parse(case: &Case) -> Option<&str> {
    let passes = case.source.len() <= SOURCE_LIMIT && case.flags <= 3;
    passes.then(|| std::str::from_utf8(&case.source).ok()).flatten()
}

/// How many bytes the file needs in each area; nothing if it is not parsed at all.
pub fn needs(case: &Case) -> [usize; AREAS] {
    text_to_parse(case).map_or([0; AREAS], |text| model::records(text, case, Reading::RIGHT).needs())
}

fn parse_original(text: &str, case: &Case) -> Result<Held, Finding> {
    let (comments, posix_escapes) = (case.flags & FLAG_COMMENTS != 0, case.flags & FLAG_POSIX_ESCAPES != 0);
    caught(|| original::parse(text, comments, posix_escapes, &case.verdicts)).map_err(Finding::OriginalPanicked)
}

/// What the original gives, or the message of its panic.
pub fn caught<T>(call: impl FnOnce() -> T) -> Result<T, String> {
    panic::catch_unwind(AssertUnwindSafe(call)).map_err(panic_message)
}

fn panic_message(payload: Box<dyn Any + Send>) -> String {
    match payload.downcast::<String>() {
        Ok(message) => *message,
        Err(payload) => payload.downcast_ref::<&str>().unwrap_or(&"a panic without message").to_string(),
    }
}

/// The records in the original's terms: every offset replaced by what it selects.
fn selected(text: &str, records: &Records) -> Result<Held, String> {
    let states = records.states.iter().enumerate().map(|(id, state)| {
        let Span { start, end } = state.name;
        let name = if id == 0 { "INITIAL".to_string() } else { part(text, start, end)? };
        Ok(original::State { id, name, start, end, exclusive: state.exclusive })
    });
    let expected_names = records.expected_names.iter().map(|name| part(text, name.start, name.end));
    Ok(Held {
        states: states.collect::<Result<_, String>>()?,
        rules: selected_rules(text, records)?,
        expected_names: expected_names.collect::<Result<_, String>>()?,
        faults: grouped_faults(records),
    })
}

fn selected_rules(text: &str, records: &Records) -> Result<Vec<original::Rule>, String> {
    let rewritten = std::str::from_utf8(&records.text).map_err(|error| format!("the rewritten text: {error}"))?;
    let mut list_entries = 0;
    let mut text_bytes = 0;
    let mut rules = vec![];
    for rule in &records.rules {
        expect_running("list from", rule.list_from, list_entries)?;
        list_entries += rule.list_count;
        if rule.place == 1 {
            expect_running("text from", rule.text_from, text_bytes)?;
            text_bytes += rule.text_length;
        }
        rules.push(selected_rule([text, rewritten], &records.lists, rule)?);
    }
    Ok(rules)
}

fn expect_running(field: &str, value: usize, earlier: usize) -> Result<(), String> {
    if value == earlier { Ok(()) } else { Err(format!("{field} is {value}, but earlier rules use {earlier}")) }
}

fn selected_rule(places: [&str; 2], lists: &[usize], rule: &Rule) -> Result<original::Rule, String> {
    let name = rule.named.then(|| part(places[0], rule.name_from, rule.name_from + rule.name_length)).transpose()?;
    let list = lists.get(rule.list_from..rule.list_from + rule.list_count);
    Ok(original::Rule {
        id: rule.has_id.then_some(rule.id as u16),
        name,
        span_start: rule.span_start,
        span_end: rule.span_end,
        text: part(places[rule.place], rule.text_from, rule.text_from + rule.text_length)?,
        list: list.ok_or("a state list passes the list entries")?.to_vec(),
        operation: rule.operation as u16,
        target: rule.target,
    })
}

fn part(text: &str, start: usize, end: usize) -> Result<String, String> {
    text.get(start..end).map(str::to_string).ok_or_else(|| format!("{start} to {end} is no part of the text"))
}

/// The spans of each fault stand together and faults are numbered in order.
fn grouped_faults(records: &Records) -> Vec<original::Fault> {
    let mut faults: Vec<original::Fault> = vec![];
    for held in &records.faults {
        let span = (held.span.start, held.span.end);
        if held.fault == faults.len() {
            faults.push(original::Fault { kind: held.kind as u16, spans: vec![span] });
        } else if let Some(fault) = faults.last_mut() {
            fault.spans.push(span);
        }
    }
    faults
}

/// Panics of the original are findings; they print nothing by themselves.
pub fn silence_panics_of_original() {
    let print = panic::take_hook();
    panic::set_hook(Box::new(move |info| {
        let in_original = info.location().is_some_and(|place| !place.file().starts_with("src"));
        if !in_original {
            print(info);
        }
    }));
}
