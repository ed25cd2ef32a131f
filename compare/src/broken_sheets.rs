//! Sheets that break one condition of number 6 each.

use crate::sheet::Sheet;

/// A sheet of 2 states, 2 rules, 1 list entry, 1 byte of rewritten text and 1 expected name over 20 bytes of source.
/// Rule 0 has the name AB, rule 1 the name A, no id, the list of state 1 and the operation 3.
pub fn good() -> Sheet {
    Sheet {
        source: b"AB and nineteen more".to_vec(),
        areas: [
            records(&[0, 0, 0, 3, 20, 1]),
            records(&[
                1, 9, 1, 0, 2, 0, 2, 0, 0, 2, 0, 0, 0, 0, //
                0, 0, 1, 19, 20, 0, 1, 1, 0, 1, 0, 1, 3, 1,
            ]),
            records(&[1]),
            vec![b'q'],
            records(&[4, 20]),
        ],
        counts: [2, 2, 1, 1, 1, 0],
    }
}

pub fn records(fields: &[u16]) -> Vec<u8> {
    fields.iter().flat_map(|field| field.to_le_bytes()).collect()
}

pub fn set(area: &mut [u8], field: usize, value: u16) {
    area[2 * field..2 * field + 2].copy_from_slice(&value.to_le_bytes());
}

pub fn cut(bytes: &mut Vec<u8>) {
    bytes.truncate(bytes.len() - 1);
}

pub type Break = (&'static str, fn(&mut Sheet));

pub const SHEETS: &[Break] = &[
    ("no states", |sheet| {
        sheet.counts = [0; 6];
    }),
    ("65 states", |sheet| {
        sheet.counts[0] = 65;
        sheet.areas[0].resize(65 * 6, 0);
    }),
    ("2,049 rules", |sheet| {
        sheet.counts[1] = 2_049;
        sheet.areas[1].resize(2_049 * 28, 0);
    }),
    ("area 1 short", |sheet| cut(&mut sheet.areas[0])),
    ("area 2 short", |sheet| cut(&mut sheet.areas[1])),
    ("area 3 short", |sheet| cut(&mut sheet.areas[2])),
    ("area 4 short", |sheet| cut(&mut sheet.areas[3])),
    ("area 5 short", |sheet| cut(&mut sheet.areas[4])),
    ("exclusive 2", |sheet| set(&mut sheet.areas[0], 5, 2)),
    ("state's name out of order", |sheet| set(&mut sheet.areas[0], 4, 2)),
    ("state's name past the source", |sheet| set(&mut sheet.areas[0], 4, 21)),
    ("has id 2", |sheet| set(&mut sheet.areas[1], 0, 2)),
    ("named 2", |sheet| set(&mut sheet.areas[1], 2, 2)),
    ("place 2", |sheet| set(&mut sheet.areas[1], 7, 2)),
    ("span out of order", |sheet| set(&mut sheet.areas[1], 14 + 3, 21)),
    ("span past the source", |sheet| set(&mut sheet.areas[1], 14 + 4, 21)),
    ("name past the source", |sheet| set(&mut sheet.areas[1], 5, 19)),
    ("name past the source by a sum above 65,535", |sheet| set(&mut sheet.areas[1], 5, 65_535)),
    ("text past the source", |sheet| set(&mut sheet.areas[1], 9, 21)),
    ("text past the rewritten text", |sheet| set(&mut sheet.areas[1], 14 + 9, 2)),
    ("list past the entries", |sheet| set(&mut sheet.areas[1], 14 + 10, 1)),
    ("operation 4", |sheet| set(&mut sheet.areas[1], 12, 4)),
    ("target not declared", |sheet| set(&mut sheet.areas[1], 13, 2)),
    ("list entry not declared", |sheet| set(&mut sheet.areas[2], 0, 2)),
    ("expected name out of order", |sheet| set(&mut sheet.areas[4], 1, 3)),
    ("expected name past the source", |sheet| set(&mut sheet.areas[4], 1, 21)),
];
