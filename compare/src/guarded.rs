//! The library that this program was built with, called with guards around everything that it may write.

use crate::case::{AREAS, Answer, Case};
use crate::library::LINKED;
use crate::link::{Call, Left};
use crate::side::Side;
use crate::step::{Run, Start, Step};
use std::ops::Range;

pub struct Ours;

impl Side for Ours {
    fn name(&self) -> String {
        "Troymantle".to_string()
    }

    fn parse(&self, case: &Case) -> Answer {
        parse(case)
    }
}

pub fn parse(case: &Case) -> Answer {
    let mut lent = case.capacities.map(|length| guarded(&vec![OLD_BYTE; length]));
    let mut counts = [0xa5a5; AREAS];
    let mut areas = lent.each_mut().map(|bytes| between_guards(bytes));
    let word = LINKED.parse(&case.source, case.flags, &case.verdicts, &mut areas, &mut counts);
    Answer { word, counts, areas: lent.map(unguarded) }
}

pub fn link(call: &Call) -> Left {
    let mut lent = [&call.sheet.areas[1], &call.area_7, &call.area_8].map(|area| guarded(area));
    let [two, seven, eight] = lent.each_mut().map(|bytes| between_guards(bytes));
    let word = LINKED.link(call, two, seven, eight);
    let [area_2, area_7, area_8] = lent.map(unguarded);
    Left { word, area_2, area_7, area_8 }
}

pub fn start(call: Start) -> (u64, Run) {
    let Start { kind, n, text, run } = call;
    on_text(text, run, |text, numbers, stack| LINKED.start(kind, n, text, numbers, stack))
}

pub fn step(call: Step) -> (u64, Run) {
    let Step { sheet, text, run, row } = call;
    on_text(text, run, |text, numbers, stack| LINKED.step(sheet, text, numbers, stack, row))
}

/// The text lies between continuation bytes: if they were read as a part of it, a cut character would be whole, and the
/// end no edge.
fn on_text(text: &[u8], run: &Run, call: impl Fn(&[u8], &mut [u16; 5], &mut [u8]) -> u64) -> (u64, Run) {
    let text = Source::new(text, run.numbers[1] as usize % 8, 0x80);
    let mut lent_numbers = [GUARD_NUMBER as u16; 9];
    let [_, _, numbers @ .., _, _] = &mut lent_numbers;
    *numbers = run.numbers;
    let mut lent = guarded(&run.stack);
    let word = call(text.lent(), numbers, between_guards(&mut lent));
    assert!(text.is_unchanged(), "the call wrote into the text or beside it");
    let [one, two, numbers @ .., eight, nine] = lent_numbers;
    assert_eq!([one, two, eight, nine], [GUARD_NUMBER as u16; 4], "the call wrote outside the run that was lent to it");
    (word, Run { numbers, stack: unguarded(lent) })
}

/// A source or a text that calls read. It stands between bytes that would change an answer if they were read as a part
/// of it.
pub struct Source {
    bytes: Vec<u8>,
    range: Range<usize>,
    kept: Vec<u8>,
}

impl Source {
    /// Moved by so many bytes, between guards of this byte.
    pub fn new(source: &[u8], shift: usize, guard: u8) -> Source {
        let range = GUARD + shift..GUARD + shift + source.len();
        let mut bytes = vec![guard; range.end + GUARD];
        bytes[range.clone()].copy_from_slice(source);
        Source { kept: bytes.clone(), bytes, range }
    }

    fn lent(&self) -> &[u8] {
        &self.bytes[self.range.clone()]
    }

    pub fn line_column(&self, offset: u64, before: [u32; 2]) -> (u64, [u32; 2]) {
        let mut lent = [GUARD_NUMBER, GUARD_NUMBER, before[0], before[1], GUARD_NUMBER, GUARD_NUMBER];
        let [_, _, place @ .., _, _] = &mut lent;
        let word = LINKED.line_column(self.lent(), offset, place);
        let [one, two, line, column, five, six] = lent;
        assert_eq!([one, two, five, six], [GUARD_NUMBER; 4], "the call wrote outside the place that was lent to it");
        (word, [line, column])
    }

    pub fn offset_at(&self, line: u64, column: u64) -> u64 {
        LINKED.offset_at(self.lent(), line, column)
    }

    pub fn is_unchanged(&self) -> bool {
        self.bytes == self.kept
    }
}

/// Bytes before and after each lent area; the call must leave them alone.
const GUARD: usize = 16;
const GUARD_BYTE: u8 = 0x5a;
const GUARD_NUMBER: u32 = 0x5a5a_5a5a;
/// What the areas of a parse hold before the call.
const OLD_BYTE: u8 = 0xa5;

fn guarded(area: &[u8]) -> Vec<u8> {
    let mut bytes = vec![GUARD_BYTE; area.len() + 2 * GUARD];
    bytes[GUARD..GUARD + area.len()].copy_from_slice(area);
    bytes
}

fn between_guards(bytes: &mut [u8]) -> &mut [u8] {
    let end = bytes.len() - GUARD;
    &mut bytes[GUARD..end]
}

fn unguarded(bytes: Vec<u8>) -> Vec<u8> {
    let (before, rest) = bytes.split_at(GUARD);
    let (area, after) = rest.split_at(rest.len() - GUARD);
    let intact = before.iter().chain(after).all(|byte| *byte == GUARD_BYTE);
    assert!(intact, "the call wrote outside an area that was lent to it");
    area.to_vec()
}

#[cfg(test)]
mod tests {
    use super::*;
    use crate::answers::{
        self, ACCEPTED, BROKEN_SHEET, DONE, NO_SUCH_PLACE, ROW_MISMATCH, TEXT_MISMATCH, TOKEN, UNKNOWN_CALLER,
    };
    use crate::step::KIOSK;
    use crate::{link, sheet};

    const SOURCE: &str = "%%\na 'A'";

    fn linked() -> sheet::Sheet {
        let call = link::call(sheet::parsed(SOURCE, 3), &[("A".to_string(), 9), ("AB".to_string(), 5)]);
        let left = link(&call);
        assert_eq!((left.word, &left.area_8[..]), (answers::word(0, &[0, 1]), &[1, 0, 0, 0][..]));
        link::linked(&call.sheet, &left)
    }

    #[test]
    fn the_library_has_a_pattern_for_each_rule() {
        let sheet = sheet::parsed(SOURCE, 0);
        assert_eq!(LINKED.pattern_test(&sheet, 0), 0);
        assert_eq!(LINKED.pattern_test(&sheet, 1), BROKEN_SHEET);
    }

    #[test]
    fn the_library_runs_over_four_bytes() {
        let (sheet, text) = (linked(), "éaa".as_bytes());
        let before = Run { numbers: [7; 5], stack: vec![7; 10] };
        let whole = Start { kind: KIOSK, n: 4, text, run: &before };
        assert_eq!(start(Start { kind: 2, ..whole }), (UNKNOWN_CALLER, before.clone()));
        assert_eq!(start(Start { text: &text[..3], ..whole }), (TEXT_MISMATCH, before.clone()));
        let (word, mut run) = start(whole);
        assert_eq!((word, run.numbers), (ACCEPTED, [4, 0, 1, 0, 1]));
        let mut words = vec![];
        for length in [1, 3, 2, 1, 1] {
            let (word, after) = step(Step { sheet: &sheet, text, run: &run, row: &[length, 0] });
            words.push(word);
            run = after;
        }
        let token = |start, length| answers::word(TOKEN, &[9, start, length]);
        assert_eq!(words, [ROW_MISMATCH, token(0, 3), ROW_MISMATCH, token(3, 1), DONE]);
        let other = Step { sheet: &sheet, text: b"aaa\xc3", run: &run, row: &[] };
        assert_eq!(step(other), (TEXT_MISMATCH, run.clone()));
        assert_eq!(run, Run { numbers: [4, 4, 1, 2, 1], stack: vec![0, 0, 7, 7, 7, 7, 7, 7, 7, 7] });
    }

    #[test]
    fn the_library_finds_a_place_and_the_way_back() {
        let source = Source::new("é\nab".as_bytes(), 1, 0x80);
        assert_eq!(source.line_column(4, [7, 7]), (0, [2, 2]));
        assert_eq!(source.offset_at(2, 2), answers::word(0, &[4]));
        assert_eq!(source.line_column(1, [7, 7]), (NO_SUCH_PLACE, [7, 7]));
        assert!(source.is_unchanged());
    }

    #[test]
    #[should_panic(expected = "outside an area")]
    fn a_write_outside_an_area_is_noticed() {
        let mut lent = guarded(&[1, 2, 3]);
        assert_eq!(between_guards(&mut lent), [1, 2, 3]);
        lent[GUARD + 3] = 0;
        unguarded(lent);
    }
}
