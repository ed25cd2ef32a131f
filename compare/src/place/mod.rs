//! `compare place`: the calls between offsets and lines and columns against a model of 02's words, and against the original's
//! `NewlineCache` where both mean the same.

mod by_hand;
mod cases;
mod misreadings;
mod model;

use crate::answers::{self, ACCEPTED, NO_SUCH_PLACE};
use crate::oracle;
use crate::show;
pub use by_hand::DAMAGED;
use misreadings::Misreading;
use model::Model;
pub use model::Place;
use original::NewlineCache;
use std::collections::BTreeMap;
use std::time::Instant;

#[derive(Clone, Copy, Debug, PartialEq, Eq, Hash)]
pub enum Call {
    LineColumn(u64),
    OffsetAt(u64, u64),
}

/// What a call answers, and the place after it.
pub type Left = (u64, [u32; 2]);

pub fn run(seed: u64, first: u64, cases: u64) -> Result<(), String> {
    let start = Instant::now();
    let by_hand = by_hand::check().map_err(|told| format!("By hand: {told}"))?;
    println!("{by_hand} calls by hand: expected answers.");
    let mut tally = Tally::default();
    let mut unnoticed: Vec<Misreading> = misreadings::ALL.iter().map(|(misreading, _)| *misreading).collect();
    for index in first..first + cases {
        let source = cases::source(seed, index);
        let subject = Subject::new(&source, index);
        let calls = cases::calls(&source, subject.model.places(), seed, index);
        let told = |what: String| format!("Place case {index} of seed {seed}: {what}");
        let left = answered(&subject, &calls, &mut tally).map_err(told)?;
        if let (false, Ok(text)) = (subject.model.places().is_empty(), std::str::from_utf8(&source)) {
            against_original(text, &subject.model, &calls, &mut tally)
                .map_err(|told_of| told(subject.told(&told_of)))?;
        }
        unnoticed.retain(|misreading| !notices(&source, &calls, &left, *misreading));
    }
    println!("{} ({:.1} seconds, seed {seed}).", tally.report(cases), start.elapsed().as_secs_f64());
    show::all_noticed("lines and columns", misreadings::ALL.len(), &unnoticed)
}

#[derive(Default)]
struct Tally {
    /// How often the calls gave each number.
    answers: BTreeMap<u64, u64>,
    /// Places that the original has too, the line feeds behind carriage returns among them, and starts of lines.
    places: u64,
    other_columns: u64,
    lines: u64,
}

impl Tally {
    fn report(&self, cases: u64) -> String {
        let whose = if cfg!(feature = "ours") { "Troymantle's" } else { "the model's" };
        format!(
            "{} sources, {} calls: {whose} lines, line starts and columns are those of the original at {} places, but for one \
             column more at {} line feeds behind a carriage return, and so are the starts of {} lines; every answer and place \
             is that of 02. Answers: {}",
            show::number(cases),
            show::number(self.answers.values().sum()),
            show::number(self.places),
            show::number(self.other_columns),
            show::number(self.lines),
            show::tally(&self.answers)
        )
    }
}

/// A source as the model and our library have it.
struct Subject {
    model: Model,
    ours: ours::Source,
    shown: String,
}

impl Subject {
    /// Where the source lies, and what stands around it, go by the number.
    fn new(source: &[u8], number: u64) -> Subject {
        // a continuation byte, a first byte and the line feed: each would change an answer if it were read
        let guard = [b'Z', 0x80, 0xc3, b'\n'][(number / 8 % 4) as usize];
        let ours = ours::Source::new(source, (number % 8) as usize, guard);
        Subject { model: Model::new(source, None), ours, shown: show::source(source) }
    }

    /// What the model has, and ours too.
    fn agreed(&self, call: Call, before: [u32; 2]) -> Result<Left, String> {
        let expected = self.model.answer(call, before);
        match self.ours.answer(call, before) {
            Some(got) if got != expected => Err(self.told(&format!("{call:?}: expected {expected:x?}, got {got:x?}"))),
            _ => Ok(expected),
        }
    }

    fn told(&self, what: &str) -> String {
        format!("{what}\nof the source {}", self.shown)
    }
}

/// No call answers with these, so that a place that was not written is seen.
fn old_place(call: usize) -> [u32; 2] {
    [0xa5a5_0000 + call as u32, 0xffff_ffff - call as u32]
}

fn answered(subject: &Subject, calls: &[Call], tally: &mut Tally) -> Result<Vec<Left>, String> {
    let mut left = vec![];
    for (number, call) in calls.iter().enumerate() {
        left.push(subject.agreed(*call, old_place(number))?);
        *tally.answers.entry(answers::number(left[number].0)).or_default() += 1;
    }
    match subject.ours.is_unchanged() {
        true => Ok(left),
        false => Err(subject.told("a call wrote to the source, or beside it")),
    }
}

/// The original has the same line and the same start of the line at every allowed offset, and none above the length. Its column
/// is the same but for the line feed of a carriage return and a line feed, which it counts as one. Inside a character it tells
/// some column, and we none, so there nothing is compared. It has no way from a column back, so only column 1 is compared, which
/// is the line's start.
fn against_original(text: &str, model: &Model, calls: &[Call], tally: &mut Tally) -> Result<(), String> {
    let mut cache = NewlineCache::new();
    cache.feed(text);
    for call in calls {
        let (word, place) = model.answer(*call, [0; 2]);
        let (original, expected) = match *call {
            Call::LineColumn(offset) => {
                if word == NO_SUCH_PLACE && offset < text.len() as u64 {
                    continue;
                }
                let accepted = (word == ACCEPTED).then_some(place.map(|number| number as usize));
                let expected = accepted.map(|[line, column]| {
                    let (before, behind) = text.split_at(offset as usize);
                    let is_one_end = before.ends_with('\r') && behind.starts_with('\n');
                    tally.places += 1;
                    tally.other_columns += u64::from(is_one_end);
                    [line, before.rfind('\n').map_or(0, |at| at + 1), line, column - usize::from(is_one_end)]
                });
                (oracle::caught(|| asked(&cache, text, offset as usize))?, expected)
            }
            Call::OffsetAt(line, 1) => {
                let start = (word != NO_SUCH_PLACE).then_some(usize::from(answers::fields(word)[1]));
                tally.lines += u64::from(start.is_some());
                (cache.line_byte_of(line as usize).map(|start| [start; 4]), start.map(|start| [start; 4]))
            }
            Call::OffsetAt(..) => continue,
        };
        if original != expected {
            return Err(format!("{call:?}: the original has {original:?}, the model {expected:?}"));
        }
    }
    Ok(())
}

/// Line, line start, and line and column, or none of them.
fn asked(cache: &NewlineCache, text: &str, offset: usize) -> Option<[usize; 4]> {
    let (line, start) = (cache.byte_to_line_num(offset), cache.byte_to_line_byte(offset));
    match (line, start, cache.byte_to_line_num_and_col_num(text, offset)) {
        (Some(line), Some(start), Some((line_again, column))) => Some([line, start, line_again, column]),
        (None, None, None) => None,
        some => panic!("the original has a part of {some:?}"),
    }
}

/// Whether the misreading gives another answer or leaves another place somewhere.
fn notices(source: &[u8], calls: &[Call], left: &[Left], misreading: Misreading) -> bool {
    let wrong = Model::new(source, Some(misreading));
    calls.iter().zip(left).enumerate().any(|(number, (call, left))| wrong.answer(*call, old_place(number)) != *left)
}

/// For the bench: the place of an offset that is allowed in an accepted text.
pub fn place_of(text: &str, offset: usize) -> Place {
    let model = Model::new(text.as_bytes(), None);
    let place = model.places().iter().find(|place| place.offset == offset as u64);
    *place.expect("the offset is allowed")
}

#[cfg(feature = "ours")]
mod ours {
    use super::{Call, Left};
    use crate::guarded;

    pub struct Source(guarded::Source);

    impl Source {
        pub fn new(source: &[u8], shift: usize, guard: u8) -> Source {
            Source(guarded::Source::new(source, shift, guard))
        }

        pub fn answer(&self, call: Call, before: [u32; 2]) -> Option<Left> {
            Some(match call {
                Call::LineColumn(offset) => self.0.line_column(offset, before),
                Call::OffsetAt(line, column) => (self.0.offset_at(line, column), before),
            })
        }

        pub fn is_unchanged(&self) -> bool {
            self.0.is_unchanged()
        }
    }
}

#[cfg(not(feature = "ours"))]
mod ours {
    use super::{Call, Left};

    pub struct Source;

    impl Source {
        pub fn new(_: &[u8], _: usize, _: u8) -> Source {
            Source
        }

        pub fn answer(&self, _: Call, _: [u32; 2]) -> Option<Left> {
            None
        }

        pub fn is_unchanged(&self) -> bool {
            true
        }
    }
}

#[cfg(test)]
mod tests {
    use super::*;

    /// The smallest texts where the original means something else.
    #[test]
    fn the_original_differs_at_a_carriage_return_and_inside_characters() {
        let original = |text: &str, offset: usize| {
            let mut cache = NewlineCache::new();
            cache.feed(text);
            asked(&cache, text, offset)
        };
        let ours = |text: &str, offset: u64| Model::new(text.as_bytes(), None).answer(Call::LineColumn(offset), [0; 2]);
        // the line feed has the column of the carriage return
        assert_eq!(original("\r\n", 0), Some([1, 0, 1, 1]));
        assert_eq!(original("\r\n", 1), Some([1, 0, 1, 1]));
        assert_eq!(ours("\r\n", 1), (ACCEPTED, [1, 2]));
        // a column that counts on to the end of the text
        assert_eq!(original("é", 1), Some([1, 0, 1, 1]));
        assert_eq!(original("é\nab", 1), Some([1, 0, 1, 4]));
        assert_eq!(ours("é", 1), (NO_SUCH_PLACE, [0; 2]));
        // a carriage return alone is a character in both
        assert_eq!(original("\ra", 1), Some([1, 0, 1, 2]));
        assert_eq!(original("\r\r\n", 1), Some([1, 0, 1, 2]));
    }

    #[test]
    fn a_difference_from_the_original_is_noticed() {
        let calls = [Call::LineColumn(3), Call::OffsetAt(2, 1)];
        let against = |text: &str, model: &Model| against_original(text, model, &calls, &mut Tally::default());
        assert_eq!(against("a\nb", &Model::new(b"a\nb", None)), Ok(()));
        for misreading in [Misreading::LineFeedIsOfTheNextLine, Misreading::EndHasNoPlace, Misreading::ColumnsFromZero]
        {
            assert!(against("a\nb", &Model::new(b"a\nb", Some(misreading))).is_err(), "{misreading:?}");
        }
    }
}
