//! Cases and answers in words.

use crate::answers::{ACCEPTED, AREA_FULL, FAULTY_FILE};
use crate::case::{AREA_NAMES, AREAS, Answer, Case, RECORD_SIZES};
use crate::oracle::{Difference, Finding};
use std::collections::BTreeMap;
use std::fmt::Debug;

/// Longer sources are cut in the middle.
const SHOWN_SOURCE: usize = 400;
const SHOWN_LINES: usize = 60;
const COLUMN: usize = 72;

pub fn case(case: &Case) -> String {
    format!(
        "source, {} bytes: {}\nflags {}, verdicts {:?}, areas of {:?} bytes",
        case.source.len(),
        source(&case.source),
        case.flags,
        shortened(&case.verdicts),
        case.capacities
    )
}

/// As a Rust byte string.
pub fn source(bytes: &[u8]) -> String {
    let quoted = |bytes: &[u8]| bytes.escape_ascii().to_string();
    if bytes.len() <= SHOWN_SOURCE {
        return format!("b\"{}\"", quoted(bytes));
    }
    let half = SHOWN_SOURCE / 2;
    let (start, end) = (&bytes[..half], &bytes[bytes.len() - half..]);
    format!("b\"{}\" ... {} bytes ... b\"{}\"", quoted(start), bytes.len() - SHOWN_SOURCE, quoted(end))
}

fn shortened(bytes: &[u8]) -> &[u8] {
    &bytes[..bytes.len().min(SHOWN_SOURCE)]
}

/// Both answers, line by line; lines that differ are marked.
pub fn side_by_side(left_name: &str, left: &Answer, right_name: &str, right: &Answer) -> String {
    let (mut left_lines, mut right_lines) = (vec![], vec![]);
    for (left, right) in sections(left).into_iter().zip(sections(right)) {
        // both sides of each area start in the same line
        let length = left.len().max(right.len());
        left_lines.extend(left.into_iter().chain(std::iter::repeat(String::new())).take(length));
        right_lines.extend(right.into_iter().chain(std::iter::repeat(String::new())).take(length));
    }
    columns(left_name, &left_lines, right_name, &right_lines)
}

pub fn finding(finding: &Finding) -> String {
    match finding {
        Finding::OriginalPanicked(message) => format!("The original panicked: {message}"),
        Finding::ModelDiffers(difference) => model_differs(difference),
    }
}

fn model_differs(difference: &Difference) -> String {
    let original = format!("{:#?}", difference.original);
    let model = match &difference.model {
        Ok(model) => format!("{model:#?}"),
        Err(why) => why.clone(),
    };
    let split = |text: &str| text.lines().map(str::to_string).collect::<Vec<_>>();
    format!(
        "The model of 01 and the original differ.\n{}",
        columns("original", &split(&original), "model", &split(&model))
    )
}

fn columns(left_name: &str, left: &[String], right_name: &str, right: &[String]) -> String {
    let mut text = format!("  {left_name:COLUMN$} | {right_name}\n");
    let missing = String::new();
    let rows = (0..left.len().max(right.len())).map(|row| {
        let (left, right) = (left.get(row).unwrap_or(&missing), right.get(row).unwrap_or(&missing));
        (left != right, left, right)
    });
    let few = left.len().max(right.len()) <= SHOWN_LINES;
    for (differs, left, right) in rows.filter(|(differs, ..)| few || *differs).take(SHOWN_LINES) {
        let mark = if differs { '!' } else { ' ' };
        text.push_str(&format!("{mark} {left:COLUMN$} | {right}\n"));
    }
    text
}

/// The word and the counts, then each area.
fn sections(answer: &Answer) -> Vec<Vec<String>> {
    let value = match answer.number() {
        AREA_FULL => format!(", area {}", answer.value()),
        FAULTY_FILE => format!(", fault spans {}", answer.value()),
        _ => String::new(),
    };
    let meaning = if answer.number() == ACCEPTED { "accepted" } else { "refused" };
    let first = vec![
        format!("word {}: {meaning}, number {}{value}", answer.word, answer.number()),
        format!("counts {:?}", answer.counts),
    ];
    [first].into_iter().chain((0..AREAS).map(|area| area_lines(area, &answer.areas[area]))).collect()
}

/// The records up to the one with the last byte that is not zero.
fn area_lines(area: usize, bytes: &[u8]) -> Vec<String> {
    let used = used_length(bytes);
    let shown = used.next_multiple_of(RECORD_SIZES[area]).min(bytes.len());
    let title = format!("area {} ({}): {} bytes, zero from {used} on", area + 1, AREA_NAMES[area], bytes.len());
    let size = RECORD_SIZES[area];
    let records =
        bytes[..shown].chunks(if size == 1 { 16 } else { size }).enumerate().map(|(number, record)| match size {
            1 => format!("  \"{}\"", record.escape_ascii()),
            _ => format!("  {number}: {}", fields(record)),
        });
    [title].into_iter().chain(records).collect()
}

pub fn used_length(bytes: &[u8]) -> usize {
    bytes.iter().rposition(|byte| *byte != 0).map_or(0, |last| last + 1)
}

fn fields(record: &[u8]) -> String {
    let fields: Vec<String> = record
        .chunks(2)
        .map(|field| match field {
            [low, high] => u16::from_le_bytes([*low, *high]).to_string(),
            _ => field.escape_ascii().to_string(),
        })
        .collect();
    fields.join(" ")
}

/// How often each number was given.
pub fn tally(answers: &BTreeMap<u64, u64>) -> String {
    let told: Vec<String> = answers.iter().map(|(answer, count)| format!("{answer}: {}", number(*count))).collect();
    told.join(", ")
}

/// Tells that all misreadings of something were noticed, or which were not.
pub fn all_noticed(what: &str, all: usize, unnoticed: &[impl Debug]) -> Result<(), String> {
    match unnoticed {
        [] => println!("All {all} misreadings of {what} were noticed."),
        _ => return Err(format!("These misreadings of {what} were not noticed: {unnoticed:?}")),
    }
    Ok(())
}

/// 1234567 as 1,234,567.
pub fn number(number: u64) -> String {
    let digits = number.to_string();
    let mut text = String::new();
    for (position, digit) in digits.chars().enumerate() {
        if position > 0 && (digits.len() - position).is_multiple_of(3) {
            text.push(',');
        }
        text.push(digit);
    }
    text
}
