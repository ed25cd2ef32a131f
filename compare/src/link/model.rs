//! The link call by 01's words, on the bytes that it takes.

use super::{Call, Left};
use crate::answers::{ACCEPTED, AREA_FULL, BROKEN_MAP, BROKEN_SHEET, word};
use crate::sheet::{field, fields};

/// The first numbers of area 7 or 8.
pub fn numbers(area: &[u8], count: u16) -> impl Iterator<Item = usize> + '_ {
    (0..count as usize).map(|k| field(area, 2 * k) as usize)
}

pub fn link(call: &Call) -> Left {
    let refused = |word| Left {
        word,
        area_2: call.sheet.areas[1].clone(),
        area_7: call.area_7.clone(),
        area_8: call.area_8.clone(),
    };
    if !call.sheet.passes() {
        return refused(BROKEN_SHEET);
    }
    let Some(map) = map(call) else { return refused(BROKEN_MAP) };
    let mut area_2 = call.sheet.areas[1].clone();
    let mut missing = vec![];
    let mut used = vec![false; map.len()];
    for (k, rule) in call.sheet.rules().iter().enumerate() {
        if !rule.is_named() {
            continue;
        }
        let entry = map.iter().position(|(name, _)| *name == &call.sheet.source[rule.name()]);
        let (has_id, id) = entry.map_or((0, 0), |j| (1, map[j].1));
        area_2[28 * k..28 * k + 2].copy_from_slice(&u16::to_le_bytes(has_id));
        area_2[28 * k + 2..28 * k + 4].copy_from_slice(&id.to_le_bytes());
        match entry {
            Some(j) => used[j] = true,
            None => missing.push(k),
        }
    }
    let idle: Vec<usize> = (0..map.len()).filter(|j| !used[*j]).collect();
    for (number, numbers, area) in [(7, &missing, &call.area_7), (8, &idle, &call.area_8)] {
        if 2 * numbers.len() > area.len() {
            return refused(word(AREA_FULL, &[number]));
        }
    }
    Left {
        word: word(ACCEPTED, &[missing.len(), idle.len()]),
        area_2,
        area_7: filled(&missing, call.area_7.len()),
        area_8: filled(&idle, call.area_8.len()),
    }
}

fn filled(numbers: &[usize], length: usize) -> Vec<u8> {
    let mut area: Vec<u8> = numbers.iter().flat_map(|number| (*number as u16).to_le_bytes()).collect();
    area.resize(length, 0);
    area
}

/// The names and ids of a map; none where it is broken.
fn map(call: &Call) -> Option<Vec<(&[u8], u16)>> {
    if !call.entries.len().is_multiple_of(6) || call.entries.len() / 6 > 2_048 {
        return None;
    }
    let mut map: Vec<(&[u8], u16)> = vec![];
    for j in 0..call.entries.len() / 6 {
        let [from, length, id] = fields(&call.entries, j);
        let name = call.names.get(from as usize..from as usize + length as usize)?;
        map.push((name, id));
    }
    let mut names: Vec<&[u8]> = map.iter().map(|(name, _)| *name).collect();
    names.sort();
    names.windows(2).all(|pair| pair[0] != pair[1]).then_some(map)
}
