//! `compare link`: the link call against the original's `set_rule_ids_spanned` and against 01's words for what the original
//! does not have: areas, broken sheets and broken maps.

mod broken;
mod cases;
mod model;

use crate::answers;
use crate::sheet::{Rule, Sheet};
use crate::show;
use cases::Linking;
use original::Definition;
use std::time::Instant;

/// What a call takes, and what areas 2, 7 and 8 hold beforehand.
#[derive(Clone, Debug, PartialEq, Eq)]
pub struct Call {
    pub sheet: Sheet,
    pub names: Vec<u8>,
    pub entries: Vec<u8>,
    pub area_7: Vec<u8>,
    pub area_8: Vec<u8>,
}

#[derive(Clone, Debug, PartialEq, Eq)]
pub struct Left {
    pub word: u64,
    pub area_2: Vec<u8>,
    pub area_7: Vec<u8>,
    pub area_8: Vec<u8>,
}

pub fn run(seed: u64, first: u64, cases: u64) -> Result<(), String> {
    let start = Instant::now();
    let hand_made = broken::check()?;
    println!("{hand_made} hand-made broken sheets and maps: expected answers.");
    let mut linked = 0;
    let mut calls = 0;
    for index in first..first + cases {
        let told = |what: String| format!("Link case {index} of seed {seed}: {what}");
        let Some(linking) = cases::linking(seed, index) else { continue };
        against_original(&linking).map_err(told)?;
        linked += 1;
        for call in cases::calls(&linking, seed, index) {
            against_model(&call).map_err(told)?;
            calls += 1;
        }
    }
    let compared = match cfg!(feature = "ours") {
        true => "Troymantle answered as 01 has it",
        false => "were made; our library is not linked",
    };
    println!(
        "{} files and maps: the model of 01 and the original link alike; {} calls: {compared} ({:.1} seconds, seed {seed}).",
        show::number(linked),
        show::number(calls),
        start.elapsed().as_secs_f64()
    );
    Ok(())
}

/// The model links as the original does: ids, and both lists of names.
fn against_original(linking: &Linking) -> Result<(), String> {
    let mut definition = Definition::new(&linking.source, false, false, &[]).ok_or("the file has faults")?;
    let entries: Vec<(&str, u16)> = linking.map.iter().map(|(name, id)| (name.as_str(), *id)).collect();
    let original = definition.link(&entries);
    let call = linking.call();
    let left = model::link(&call);
    let rules = linked(&call.sheet, &left).rules();
    let ids: Vec<Option<u16>> = rules.iter().map(|rule| (rule.has_id() == 1).then_some(rule.id())).collect();
    let [_, missing, idle, _] = answers::fields(left.word);
    let mut missing: Vec<String> = model::numbers(&left.area_7, missing).map(|k| name_of(&call, &rules[k])).collect();
    missing.sort();
    let mut idle: Vec<String> = model::numbers(&left.area_8, idle).map(|j| linking.map[j].0.clone()).collect();
    idle.sort();
    let model = original::Linked { ids, rules_without_entry: missing, entries_without_rule: idle };
    if model == original {
        Ok(())
    } else {
        Err(format!("the original has {original:?}\nthe model {model:?}\nof {linking:?}"))
    }
}

/// The call of a sheet with a map whose names stand one behind the other, and areas 7 and 8 with room for all numbers.
pub fn call(sheet: Sheet, map: &[(String, u16)]) -> Call {
    let mut names = vec![];
    let mut entries = vec![];
    for (name, id) in map {
        let fields = [names.len() as u16, name.len() as u16, *id];
        entries.extend(fields.into_iter().flat_map(u16::to_le_bytes));
        names.extend(name.bytes());
    }
    let area_7 = vec![0; 2 * sheet.counts[1] as usize];
    Call { sheet, names, entries, area_7, area_8: vec![0; 2 * map.len()] }
}

/// The sheet after the call.
pub fn linked(sheet: &Sheet, left: &Left) -> Sheet {
    let mut sheet = sheet.clone();
    sheet.areas[1] = left.area_2.clone();
    sheet
}

fn name_of(call: &Call, rule: &Rule) -> String {
    String::from_utf8_lossy(&call.sheet.source[rule.name()]).into_owned()
}

/// What the call leaves by the model, and by ours too.
pub fn against_model(call: &Call) -> Result<Left, String> {
    let expected = model::link(call);
    match ours(call) {
        Some(got) if got != expected => Err(format!("expected {expected:?}\ngot {got:?}\nof {call:?}")),
        _ => Ok(expected),
    }
}

#[cfg(feature = "ours")]
fn ours(call: &Call) -> Option<Left> {
    Some(crate::guarded::link(call))
}

#[cfg(not(feature = "ours"))]
fn ours(_: &Call) -> Option<Left> {
    None
}
