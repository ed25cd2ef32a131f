//! 01, Numbers and Areas: what is written goes into areas of given lengths, and the call answers.

use super::{Kind, Reading, Rule, Span, State, Write, walk};
use crate::answers::{ACCEPTED, AREA_FULL, FAULTY_FILE, INVALID_UTF8, LONG_FILE, UNKNOWN_FLAG, word};
use crate::case::{AREAS, Answer, Case, RECORD_LIMITS, RECORD_SIZES, SOURCE_LIMIT};
use crate::misreadings::Misreading as M;
use std::borrow::Cow;

#[derive(Clone, Debug, PartialEq, Eq)]
pub struct FaultSpan {
    pub fault: usize,
    pub kind: Kind,
    pub span: Span,
}

/// The records of all six areas.
#[derive(Clone, Debug, PartialEq, Eq, Default)]
pub struct Records {
    pub states: Vec<State>,
    pub rules: Vec<Rule>,
    pub lists: Vec<usize>,
    pub text: Vec<u8>,
    pub expected_names: Vec<Span>,
    pub faults: Vec<FaultSpan>,
}

/// The next record or text doesn't fit the area of this number, counted from 1.
struct Full(usize);

/// What the file means when no area is short and none has a limit.
pub fn records(text: &str, case: &Case, reading: Reading) -> Records {
    let mut records = Records::default();
    for write in walk(text, case, reading) {
        records.add(write, reading);
    }
    records
}

/// The whole answer of the parse call.
pub fn answer(case: &Case, reading: Reading) -> Answer {
    match refusal(case, reading) {
        Err(number) => cleared(case, word(number, &[])),
        Ok(text) => answer_to_text(&text, case, reading),
    }
}

/// Numbers 1, 2 and 3, in this order; else the text.
fn refusal(case: &Case, reading: Reading) -> Result<Cow<'_, str>, u64> {
    let limit = match reading {
        _ if reading.has(M::LongFileAtTheLimit) => SOURCE_LIMIT - 1,
        _ if reading.has(M::LongFileOneLater) => SOURCE_LIMIT + 1,
        _ => SOURCE_LIMIT,
    };
    let flags = reading.choose(M::FlagOfEightBitsOnly, case.flags % 256, case.flags);
    let text = text_of(&case.source, reading);
    let mut tests = [
        (case.source.len() > limit, LONG_FILE),
        (flags > 3 && !reading.has(M::FlagsMasked), UNKNOWN_FLAG),
        (text.is_none(), INVALID_UTF8),
    ];
    if reading.has(M::StrayFlagBeforeLongFile) {
        tests.swap(0, 1);
    }
    if reading.has(M::NotTextBeforeStrayFlag) {
        tests.swap(1, 2);
    }
    match (tests.iter().find(|(holds, _)| *holds), text) {
        (Some((_, number)), _) => Err(*number),
        (None, Some(text)) => Ok(text),
        (None, None) => Err(INVALID_UTF8),
    }
}

/// The source as text, if it is valid UTF-8. A misreading takes some invalid sequences for one character.
fn text_of(source: &[u8], reading: Reading) -> Option<Cow<'_, str>> {
    if let Ok(text) = std::str::from_utf8(source) {
        return Some(Cow::Borrowed(text));
    }
    let accepts = |bad: &[u8], is_last: bool| match *bad {
        [0xed, 0xa0..=0xbf, ..] => reading.has(M::SurrogatesAreText),
        [0xc0 | 0xc1, ..] | [0xe0, 0x80..=0x9f, ..] | [0xf0, 0x80..=0x8f, ..] => reading.has(M::OverlongFormsAreText),
        [0xf4, 0x90..=0xbf, ..] | [0xf5..=0xf7, ..] => reading.has(M::CharactersPastTheLastAreText),
        [0xc2..=0xdf] | [0xe1..=0xef] | [0xf1..=0xf3] => reading.has(M::CutCharacterIsText) && is_last,
        _ => false,
    };
    let mut text = String::new();
    let mut rest = source;
    while !rest.is_empty() {
        match std::str::from_utf8(rest) {
            Ok(valid) => {
                text.push_str(valid);
                break;
            }
            Err(error) => {
                let (valid, bad) = rest.split_at(error.valid_up_to());
                if !accepts(bad, error.error_len().is_none()) {
                    return None;
                }
                text.push_str(std::str::from_utf8(valid).unwrap_or_default());
                text.push('?');
                let tail = bad[1..].iter().take(3).take_while(|byte| **byte & 0xc0 == 0x80).count();
                rest = &bad[1 + tail..];
            }
        }
    }
    Some(Cow::Owned(text))
}

fn answer_to_text(text: &str, case: &Case, reading: Reading) -> Answer {
    let mut records = Records::default();
    let mut noticed_late = None;
    for write in walk(text, case, reading) {
        match records.check(&write, case, reading) {
            Ok(()) => records.add(write, reading),
            Err(full) if records.notices_late(reading) => noticed_late = noticed_late.or(Some(full)),
            Err(full) => return full_answer(full, records, case, reading),
        }
    }
    match noticed_late {
        _ if !records.faults.is_empty() => faulty(records, case, reading),
        Some(full) => full_answer(full, records, case, reading),
        None => Answer { counts: records.counts(reading), ..records.answer(case, reading) },
    }
}

fn full_answer(Full(area): Full, records: Records, case: &Case, reading: Reading) -> Answer {
    let area = area - reading.choose(M::AreaNumberFromZero, 1, 0);
    let kept = if reading.has(M::AreasKeptWhenFull) { records } else { Records::default() };
    Answer { word: word(AREA_FULL, &[area]), ..kept.answer(case, reading) }
}

/// At number 5 the fault records stay and everything else is zero.
fn faulty(records: Records, case: &Case, reading: Reading) -> Answer {
    let spans = match reading.has(M::FaultsCountedOnce) {
        true => records.faults.iter().map(|span| span.fault + 1).max().unwrap_or(0),
        false => records.faults.len(),
    };
    let counts = reading.choose(M::CountsAtFaults, records.counts(reading), [0; AREAS]);
    let faults = if reading.has(M::FaultsLostAtFaults) { vec![] } else { records.faults.clone() };
    let kept = match reading.has(M::AreasKeptAtFaults) {
        true => records,
        false => Records { faults, ..Records::default() },
    };
    Answer { word: word(FAULTY_FILE, &[spans]), counts, ..kept.answer(case, reading) }
}

fn cleared(case: &Case, word: u64) -> Answer {
    Answer { word, counts: [0; AREAS], areas: case.capacities.map(|length| vec![0; length]) }
}

impl Records {
    fn lengths(&self) -> [usize; AREAS] {
        [
            self.states.len(),
            self.rules.len(),
            self.lists.len(),
            self.text.len(),
            self.expected_names.len(),
            self.faults.len(),
        ]
    }

    /// How many bytes each area needs.
    pub fn needs(&self) -> [usize; AREAS] {
        let mut needs = self.lengths();
        for (need, size) in needs.iter_mut().zip(RECORD_SIZES) {
            *need *= size;
        }
        needs
    }

    fn counts(&self, reading: Reading) -> [u16; AREAS] {
        reading.choose(M::CountsInBytes, self.needs(), self.lengths()).map(|count| count as u16)
    }

    /// Whether there is room for the write: whole records only, and no more than the area's limit.
    fn check(&self, write: &Write, case: &Case, reading: Reading) -> Result<(), Full> {
        let is_refused = matches!(write, Write::Fault { kind: Kind::RegexError, .. });
        if is_refused && reading.has(M::AreaTwoBeforeVerdict) {
            self.check(&Write::Rule(Rule::default()), case, reading)?;
        }
        let (area, more) = match write {
            Write::State(_) => (1, 1),
            Write::Rule(_) => (2, 1),
            Write::ListEntry(_) => (3, 1),
            Write::Text(text) => (4, text.len()),
            Write::ExpectedName(_) => (5, 1),
            Write::Fault { second, .. } => (6, 1 + second.iter().count()),
            Write::Repeat { .. } => (6, 1),
        };
        let count = self.lengths()[area - 1] + more;
        let needed = count * RECORD_SIZES[area - 1] + reading.choose(M::CapacityMustExceed, 1, 0);
        let unchecked = match write {
            Write::State(_) if self.states.is_empty() => reading.has(M::InitialStateNeedsNoRoom),
            Write::Fault { kind, .. } => {
                let goes_on =
                    [Kind::VerbatimNotSupported, Kind::DuplicateName, Kind::DuplicateStartState].contains(kind);
                !goes_on && reading.has(M::FaultThatEndsNeedsNoRoom)
            }
            _ => false,
        };
        match unchecked || count <= limit(area, reading) && needed <= case.capacities[area - 1] {
            true => Ok(()),
            false => Err(Full(area)),
        }
    }

    /// By misreading only: a full area is noticed when the whole file was read, and only if it has no faults.
    fn notices_late(&self, reading: Reading) -> bool {
        reading.has(M::FullAreaCheckedLate) || reading.has(M::InitialStateCheckedLate) && self.states.is_empty()
    }

    fn add(&mut self, write: Write, reading: Reading) {
        match write {
            Write::State(state) => self.states.push(state),
            Write::Rule(rule) => self.rules.push(rule),
            Write::ListEntry(id) => self.lists.push(id),
            Write::Text(text) => self.text.extend(text),
            Write::ExpectedName(name) => self.expected_names.push(name),
            Write::Fault { kind, first, second } => {
                let first_number = reading.choose(M::FaultNumberFromOne, 1, 0);
                let fault = self.faults.last().map_or(first_number, |last| last.fault + 1);
                let spans = [Some(first), second].into_iter().flatten();
                self.faults.extend(spans.map(|span| FaultSpan { fault, kind, span }));
            }
            Write::Repeat { fault, kind, span } => self.add_repeat(FaultSpan { fault, kind, span }, reading),
        }
    }

    /// After the last span of the same fault; the records behind move up.
    fn add_repeat(&mut self, span: FaultSpan, reading: Reading) {
        let fault = span.fault + reading.choose(M::FaultNumberFromOne, 1, 0);
        let behind = self.faults.iter().rposition(|held| held.fault == fault).map_or(0, |last| last + 1);
        let at = reading.choose(M::RepeatAppendedAtEnd, self.faults.len(), behind);
        self.faults.insert(at, FaultSpan { fault, ..span });
    }

    /// Accepted, with all areas filled and no counts.
    fn answer(&self, case: &Case, reading: Reading) -> Answer {
        let mut answer = cleared(case, ACCEPTED);
        for (area, bytes) in answer.areas.iter_mut().zip(self.bytes(reading)) {
            let length = bytes.len().min(area.len());
            area[..length].copy_from_slice(&bytes[..length]);
            if reading.has(M::LastByteNotZeroed) && length < area.len() {
                area[length] = 1;
            }
        }
        answer
    }

    fn bytes(&self, reading: Reading) -> [Vec<u8>; AREAS] {
        [
            fields(self.states.iter().map(|state| [state.name.start, state.name.end, usize::from(state.exclusive)])),
            fields(self.rules.iter().map(rule_fields)),
            fields(self.lists.iter().map(|id| [*id])),
            self.text.clone(),
            fields(self.expected_names.iter().map(|name| [name.start, name.end])),
            fields(self.faults.iter().enumerate().map(|(position, held)| {
                let number = reading.choose(M::FaultNumberCountsSpans, position, held.fault);
                [number, held.kind as usize, held.span.start, held.span.end]
            })),
        ]
    }
}

fn limit(area: usize, reading: Reading) -> usize {
    let right = RECORD_LIMITS[area - 1];
    match area {
        1 if reading.has(M::SixtyFiveStates) => right + 1,
        1 if reading.has(M::SixtyThreeStates) => right - 1,
        2 if reading.has(M::OneMoreRule) => right + 1,
        2 if reading.has(M::OneRuleLess) => right - 1,
        4 if reading.has(M::NoLimitOfText) => usize::MAX,
        4 if reading.has(M::LimitOfTextOneLower) => right - 1,
        _ => right,
    }
}

fn rule_fields(rule: &Rule) -> [usize; 14] {
    [
        usize::from(rule.has_id),
        rule.id,
        usize::from(rule.named),
        rule.span_start,
        rule.span_end,
        rule.name_from,
        rule.name_length,
        rule.place,
        rule.text_from,
        rule.text_length,
        rule.list_from,
        rule.list_count,
        rule.operation,
        rule.target,
    ]
}

/// Every field is two bytes, low byte first.
fn fields<const N: usize>(records: impl Iterator<Item = [usize; N]>) -> Vec<u8> {
    records.flatten().flat_map(|field| (field as u16).to_le_bytes()).collect()
}

#[cfg(test)]
mod tests {
    use super::*;
    use crate::answers::fields as fields_of;

    const SOURCE: &str = "%x S\n%%\n<S>a 'N'\n\\qb ;";
    /// Two states, two rules, one list entry, two rewritten bytes.
    const NEEDS: [usize; AREAS] = [12, 56, 2, 2, 0, 0];

    fn answer_in(source: &str, capacities: [usize; AREAS]) -> Answer {
        let case = Case { source: source.into(), flags: 0, verdicts: vec![], capacities };
        answer(&case, Reading::RIGHT)
    }

    #[test]
    fn areas_that_just_fit_are_filled() {
        let answer = answer_in(SOURCE, NEEDS);
        assert_eq!((answer.word, answer.counts), (ACCEPTED, [2, 2, 1, 2, 0, 0]));
        assert_eq!((&answer.areas[2][..], &answer.areas[3][..]), (&[1, 0][..], &b"qb"[..]));
        let roomy = answer_in(SOURCE, NEEDS.map(|need| need + 3));
        for (area, (bytes, need)) in roomy.areas.iter().zip(NEEDS).enumerate() {
            assert_eq!((&bytes[..need], &bytes[need..]), (&answer.areas[area][..], &[0, 0, 0][..]));
        }
    }

    #[test]
    fn an_area_one_byte_short_is_told_by_its_number() {
        for area in 0..4 {
            let mut capacities = NEEDS;
            capacities[area] -= 1;
            let answer = answer_in(SOURCE, capacities);
            assert_eq!(fields_of(answer.word), [4, area as u16 + 1, 0, 0]);
            assert_eq!((answer.counts, answer.areas), ([0; AREAS], capacities.map(|length| vec![0; length])));
        }
    }

    #[test]
    fn a_repeat_moves_later_faults_up() {
        let answer = answer_in("%%\na 'N'\nb 'N'\n v\nc 'N'", [999; AREAS]);
        assert_eq!(fields_of(answer.word), [5, 4, 0, 0]);
        let kinds: Vec<u8> = answer.areas[5].chunks(8).take(4).map(|span| span[2]).collect();
        assert_eq!(kinds, [9, 9, 9, 11]);
    }

    #[test]
    fn refusals_come_in_order() {
        let long = vec![b'/'; SOURCE_LIMIT + 1];
        let number = |source: Vec<u8>, flags| {
            answer(&Case { source, flags, verdicts: vec![], capacities: [0; AREAS] }, Reading::RIGHT).word
        };
        assert_eq!(number(long, 4), LONG_FILE);
        assert_eq!(number(vec![0xff], 4), UNKNOWN_FLAG);
        assert_eq!(number(vec![0xff], 3), INVALID_UTF8);
        assert_eq!(number(vec![], 3), word(AREA_FULL, &[1]));
    }
}
