//! A walk over a file that does less than a parse, by the search routines that the original's regexes use. Its time says
//! how far a reader of lines gets with them, whatever else it does or leaves out.

use crate::case::RECORD_SIZES;
use memchr::{memchr, memrchr2};

const RULE_WIDTH: usize = RECORD_SIZES[1];

/// What the walk writes to.
pub struct Room {
    rules: Vec<u8>,
    text: Vec<u8>,
}

impl Room {
    pub fn new(source: &[u8]) -> Room {
        let lines = source.split(|byte| *byte == b'\n').count();
        Room { rules: vec![0; lines * RULE_WIDTH], text: vec![0; source.len()] }
    }
}

/// Checks UTF-8, finds each line's end, the last blank of a rule's line and the backslashes in front of it, copies a pattern
/// that has some without them, and writes a record for each rule. It knows one line end of five, and no names, states,
/// targets, kept escapes or faults. Answers how many rules there are and how many bytes were copied.
pub fn walk(source: &[u8], comments: bool, room: &mut Room) -> (usize, usize) {
    if std::str::from_utf8(source).is_err() {
        return (0, 0);
    }
    let (mut rules, mut copied, mut at, mut in_rules) = (0, 0, 0, false);
    while at < source.len() {
        let end = memchr(b'\n', &source[at..]).map_or(source.len(), |length| at + length);
        let line = &source[at..end];
        at = end + 1;
        if line.is_empty() || comments && line.starts_with(b"//") {
            continue;
        }
        if line == b"%%" {
            in_rules = true;
            continue;
        }
        if in_rules {
            let blank = memrchr2(b' ', b'\t', line).unwrap_or(0);
            let before = copied;
            copied = copy_unescaped(&line[..blank], &mut room.text, copied);
            let fields = [rules, end - line.len(), end, blank, line.len() - blank, before, copied - before];
            let record = &mut room.rules[rules * RULE_WIDTH..][..RULE_WIDTH];
            record.fill(0);
            for (field, place) in fields.iter().zip(record.chunks_exact_mut(2)) {
                place.copy_from_slice(&(*field as u16).to_le_bytes());
            }
            rules += 1;
        }
    }
    (rules, copied)
}

/// A pattern that has backslashes, without them, behind what was copied before. Answers how many bytes are copied then.
fn copy_unescaped(pattern: &[u8], text: &mut [u8], before: usize) -> usize {
    let (mut from, mut to) = (0, before);
    while let Some(length) = memchr(b'\\', &pattern[from..]) {
        let escaped = (from + length + 1).min(pattern.len() - 1);
        text[to..to + length].copy_from_slice(&pattern[from..from + length]);
        text[to + length] = pattern[escaped];
        to += length + 1;
        from = escaped + 1;
    }
    if from == 0 {
        return before;
    }
    let rest = &pattern[from..];
    text[to..to + rest.len()].copy_from_slice(rest);
    to + rest.len()
}
