//! Sheets and maps that break one condition of number 6 or 7 each, with the answers that 01 gives them.

use super::{Call, Left, against_model, model};
use crate::answers::{ACCEPTED, BROKEN_MAP, BROKEN_SHEET, word};
use crate::broken_sheets::{self, cut, records, set};

/// The good sheet, and a map of 2 entries. Rule 0 has no entry, rule 1 has entry 1.
fn good() -> Call {
    Call {
        sheet: broken_sheets::good(),
        names: b"AAC".to_vec(),
        entries: records(&[1, 2, 700, 0, 1, 65_535]),
        area_7: vec![7; 5],
        area_8: vec![8; 5],
    }
}

/// How many were tried.
pub fn check() -> Result<usize, String> {
    let mut accepted = good();
    let left = model::link(&accepted);
    let mut area_2 = accepted.sheet.areas[1].clone();
    area_2[..4].fill(0);
    area_2[28..32].copy_from_slice(&[1, 0, 255, 255]);
    let right = Left { word: word(ACCEPTED, &[1, 1]), area_2, area_7: vec![0; 5], area_8: vec![0; 5] };
    expect("a good sheet and map", &left, &right)?;
    against_model(&accepted)?;
    let mut tried = 1;
    let mut refused = |what: &str, number: u64, call: Call| {
        tried += 1;
        expect(what, &model::link(&call), &unchanged(&call, number))?;
        against_model(&call).map(drop).map_err(|told| format!("{what}: {told}"))
    };
    for (what, change) in broken_sheets::SHEETS {
        let mut call = good();
        change(&mut call.sheet);
        refused(what, BROKEN_SHEET, call)?;
    }
    for (what, change) in MAPS {
        let mut call = good();
        change(&mut call);
        refused(what, BROKEN_MAP, call)?;
    }
    // 6 comes before 7, and 7 before 4
    accepted.sheet.counts[0] = 0;
    accepted.entries.pop();
    expect("both broken", &model::link(&accepted), &unchanged(&accepted, BROKEN_SHEET))?;
    against_model(&accepted)?;
    let mut call = good();
    call.entries.pop();
    call.area_7.clear();
    expect("a broken map and no room", &model::link(&call), &unchanged(&call, BROKEN_MAP))?;
    against_model(&call)?;
    Ok(tried + 2)
}

fn unchanged(call: &Call, number: u64) -> Left {
    Left { word: number, area_2: call.sheet.areas[1].clone(), area_7: call.area_7.clone(), area_8: call.area_8.clone() }
}

fn expect(what: &str, left: &Left, right: &Left) -> Result<(), String> {
    if left == right { Ok(()) } else { Err(format!("{what}: the model has {left:?}, and 01 {right:?}")) }
}

type Break = (&'static str, fn(&mut Call));

const MAPS: &[Break] = &[
    ("a length of 6 n - 1", |call| cut(&mut call.entries)),
    ("a length of 6 n + 1", |call| call.entries.push(0)),
    ("2,049 entries", |call| {
        call.names = (0..2_049).flat_map(|name: u16| name.to_be_bytes()).collect();
        call.entries = (0..2_049).flat_map(|j: u16| [2 * j, 2, j].into_iter().flat_map(u16::to_le_bytes)).collect();
    }),
    ("a name past the names", |call| set(&mut call.entries, 1, 3)),
    ("an empty name past the names", |call| {
        set(&mut call.entries, 0, 4);
        set(&mut call.entries, 1, 0);
    }),
    ("a name past the names by a sum above 65,535", |call| set(&mut call.entries, 0, 65_535)),
    ("equal names", |call| {
        set(&mut call.entries, 0, 1);
        set(&mut call.entries, 1, 1);
    }),
    ("two empty names", |call| {
        set(&mut call.entries, 1, 0);
        set(&mut call.entries, 4, 0);
    }),
];
