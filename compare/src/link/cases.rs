//! Files, maps and calls, each a function of seed and index alone.

use super::Call;
use crate::answers;
use crate::case::{AREAS, Case};
use crate::oracle;
use crate::random::Random;
use crate::sheet::parsed;
use std::collections::HashSet;

/// An accepted file and a map of distinct names.
#[derive(Clone, Debug)]
pub struct Linking {
    pub source: String,
    pub map: Vec<(String, u16)>,
    /// The bytes of the names, and where each name stands.
    names: Vec<u8>,
    places: Vec<usize>,
}

impl Linking {
    /// With areas that have room for everything, and bytes behind the records.
    pub fn call(&self) -> Call {
        let sheet = parsed(&self.source, 5);
        let entries = self.map.iter().zip(&self.places).flat_map(|((name, id), from)| {
            [*from as u16, name.len() as u16, *id].into_iter().flat_map(u16::to_le_bytes)
        });
        Call {
            names: self.names.clone(),
            entries: entries.collect(),
            area_7: vec![0xa5; 2 * sheet.counts[1] as usize + 3],
            area_8: vec![0xa5; 2 * self.map.len() + 3],
            sheet,
        }
    }
}

const NAMES: [&str; 18] =
    ["A", "AB", "ABC", "B", "BA", "a", "é", "éa", "A'", "'", "\"", "AA", "AAA", "x", "INT", "ID", "INTEGER", "+"];

/// None where the file that was drawn has faults.
pub fn linking(seed: u64, index: u64) -> Option<Linking> {
    let mut random = Random::new(seed ^ 0x6c69_6e6b, index);
    let large = index % 2_000 == 7;
    let mut rule_names: Vec<Option<String>> = vec![];
    let rules = if large { 2_048 - random.below(3) } else { random.below(9) };
    for _ in 0..rules {
        rule_names.push(name(&mut random, large).filter(|_| !random.percent(25)));
    }
    let mut seen = HashSet::new();
    rule_names.retain(|name| name.as_ref().is_none_or(|name| seen.insert(name.clone())));
    let source = file(&mut random, &rule_names);
    let known: Vec<String> = rule_names.into_iter().flatten().collect();
    let map = map(&mut random, &known, large);
    let (names, places) = laid(&mut random, &map);
    let case = Case { source: source.clone().into_bytes(), flags: 0, verdicts: vec![], capacities: [0; AREAS] };
    let accepted = oracle::held(&case).ok().flatten().is_some_and(|held| held.faults.is_empty());
    accepted.then_some(Linking { source, map, names, places })
}

fn name(random: &mut Random, large: bool) -> Option<String> {
    let word = random.pick(&NAMES).to_string();
    let number = random.below(5_000);
    Some(match random.below(if large { 1 } else { 4 }) {
        0 => format!("{word}{number}"),
        _ => word,
    })
}

fn file(random: &mut Random, rules: &[Option<String>]) -> String {
    let mut text = random.pick(&["%%\n", "%x S\n%%\n", "%s S T\n%expect-missing \"Q\"\n%%\n"]).to_string();
    let states = text.len() > 3;
    for (number, name) in rules.iter().enumerate() {
        let list = if states && random.percent(20) { "<S>" } else { "" };
        let target = if states && random.percent(20) { random.pick(&["<S>", "<+S>", "<-S>"]) } else { "" };
        let pattern = random.pick(&["a", "[0-9]+", "\\q\\.", "\\@b"]);
        let quote = random.pick(&["'", "\""]);
        let name = name
            .as_ref()
            .map_or_else(|| random.pick(&[";", "''", "\"\""]).to_string(), |n| format!("{quote}{n}{quote}"));
        text.push_str(&format!("{list}{pattern}{} {target}{name}\n", number % 7));
    }
    text
}

/// Names of rules, prefixes and extensions of them, unknown ones and the empty one.
fn map(random: &mut Random, known: &[String], large: bool) -> Vec<(String, u16)> {
    let entries = if large { 2_048 - random.below(2) } else { random.below(9) };
    let mut map: Vec<(String, u16)> = vec![];
    let mut seen = HashSet::new();
    let share = random.pick(&[0, 50, 90, 100]);
    if random.percent(30) && !large {
        map.extend(known.iter().map(|name| (name.clone(), random.below(65_536) as u16)));
        seen.extend(known.iter().cloned());
    }
    for turn in 0.. {
        if map.len() >= entries || turn > 4 * entries {
            break;
        }
        let drawn = if !known.is_empty() && random.percent(share) {
            known[random.below(known.len())].clone()
        } else {
            name(random, large).unwrap_or_default()
        };
        let drawn = match random.below(12) {
            0 => drawn.chars().take(drawn.chars().count() / 2).collect(),
            1 => drawn + "Z",
            2 if random.percent(30) => String::new(),
            _ => drawn,
        };
        let id = random.below(65_536) as u16;
        if seen.insert(drawn.clone()) {
            map.push((drawn, random.pick(&[0, 1, 255, 256, 65_535, id])));
        }
    }
    random.shuffle(&mut map);
    map
}

/// The names one behind the other in some order; a name that already stands there may share its bytes.
fn laid(random: &mut Random, map: &[(String, u16)]) -> (Vec<u8>, Vec<usize>) {
    let mut order: Vec<usize> = (0..map.len()).collect();
    random.shuffle(&mut order);
    let mut names: Vec<u8> = vec![];
    let mut places = vec![0; map.len()];
    let share = map.len() < 20 && random.percent(50);
    for j in order {
        let name = map[j].0.as_bytes();
        let found =
            if share && !name.is_empty() { names.windows(name.len()).position(|part| part == name) } else { None };
        places[j] = found.unwrap_or(names.len());
        if found.is_none() {
            names.extend(name);
        }
    }
    if random.percent(50) {
        names.extend([0xff, 0x00]);
    }
    (names, places)
}

/// The call with room, with areas 7 and 8 exactly full and short, and with damaged sheets and maps.
pub fn calls(linking: &Linking, seed: u64, index: u64) -> Vec<Call> {
    let mut random = Random::new(seed ^ 0x6361_6c6c, index);
    let roomy = linking.call();
    let word = super::model::link(&roomy).word;
    let [_, missing, idle, _] = answers::fields(word).map(usize::from);
    let with =
        |seven: usize, eight: usize| Call { area_7: vec![0x5a; seven], area_8: vec![0xc3; eight], ..roomy.clone() };
    let short = |length: usize, less: usize| length.saturating_sub(less);
    let mut calls = vec![
        with(2 * missing, 2 * idle),
        with(short(2 * missing, 1), 2 * idle),
        with(2 * missing, short(2 * idle, 1)),
        with(short(2 * missing, 2), short(2 * idle, 2)),
        with(0, 0),
    ];
    for _ in 0..if linking.map.len() > 1_000 { 1 } else { 6 } {
        calls.push(damaged(&mut random, roomy.clone()));
    }
    calls.push(roomy);
    calls
}

/// One or two bytes, counts or lengths are other than they were.
fn damaged(random: &mut Random, mut call: Call) -> Call {
    for _ in 0..1 + random.below(2) {
        match random.below(10) {
            0 => call.sheet.counts[random.below(6)] = random.pick(&[0, 1, 2, 64, 65, 2_048, 2_049, 65_535]),
            1 => call.sheet.counts[random.below(6)] ^= 1,
            2 => {
                let area = &mut call.sheet.areas[random.below(5)];
                area.truncate(area.len() - random.below(area.len() + 1).min(12));
            }
            3 => call.names.truncate(call.names.len() - random.below(call.names.len() + 1).min(3)),
            4 => call.entries.truncate(call.entries.len() - random.below(call.entries.len() + 1).min(13)),
            5 => overwrite(random, &mut call.entries),
            6 => overwrite(random, &mut call.names),
            7 => {
                let area = random.pick(&[0, 2, 4]);
                overwrite(random, &mut call.sheet.areas[area]);
            }
            _ => overwrite(random, &mut call.sheet.areas[1]),
        }
    }
    call
}

fn overwrite(random: &mut Random, bytes: &mut [u8]) {
    if !bytes.is_empty() {
        let at = random.below(bytes.len());
        bytes[at] = random.pick(&[0, 1, 2, 3, 4, 255, bytes[at].wrapping_add(1), bytes[at] ^ 0x80]);
    }
}
