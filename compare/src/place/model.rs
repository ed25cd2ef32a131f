//! The two calls by 02's words, on a text and its characters.

use super::misreadings::Misreading as M;
use super::{Call, Left};
use crate::answers::{ACCEPTED, INVALID_UTF8, LONG_FILE, NO_SUCH_PLACE, word};
use crate::case::SOURCE_LIMIT;
use std::borrow::Cow;

/// An allowed offset with its line and column.
#[derive(Clone, Copy, Debug, PartialEq, Eq)]
pub struct Place {
    pub offset: u64,
    pub line: u64,
    pub column: u64,
}

/// What the calls answer about one source.
pub struct Model {
    length: u64,
    is_text: bool,
    /// Every place in order, or 1 or 3.
    places: Result<Vec<Place>, u64>,
    reading: Reading,
}

impl Model {
    pub fn new(source: &[u8], wrong: Option<M>) -> Model {
        let reading = Reading { wrong };
        let places = reading.tested(source).map(|text| reading.places(&text));
        Model { length: source.len() as u64, is_text: std::str::from_utf8(source).is_ok(), places, reading }
    }

    /// None where the source is refused.
    pub fn places(&self) -> &[Place] {
        self.places.as_deref().unwrap_or_default()
    }

    /// What a call answers and leaves, if the place is as it is before.
    pub fn answer(&self, call: Call, before: [u32; 2]) -> Left {
        match call {
            Call::LineColumn(offset) => self.line_column(offset, before),
            Call::OffsetAt(line, column) => (self.offset_at(line, column), before),
        }
    }

    fn line_column(&self, offset: u64, before: [u32; 2]) -> Left {
        let offset = match self.reading.wrong {
            Some(M::OffsetOfSixteenBits) => offset % (1 << 16),
            Some(M::OffsetOfThirtyTwoBits) => offset % (1 << 32),
            _ => offset,
        };
        let answer = match &self.places {
            Err(number) if self.tests_before(*number) && offset > self.length => Err(NO_SUCH_PLACE),
            Err(number) => Err(*number),
            Ok(places) => self.place_of(places, offset).ok_or(self.none()),
        };
        match answer {
            Ok(place) if self.has(M::PlaceOfSixteenBits) => {
                (ACCEPTED, [place.line, place.column].map(|number| u32::from(number as u16)))
            }
            Ok(place) => (ACCEPTED, [place.line, place.column].map(|number| number as u32)),
            Err(number) if self.has(M::PlaceWrittenAtARefusal) => (number, [0; 2]),
            Err(number) => (number, before),
        }
    }

    /// The allowed offset whose line and column these are.
    fn offset_at(&self, line: u64, column: u64) -> u64 {
        let [line, column] = [line, column].map(|number| match self.reading.wrong {
            Some(M::PairOfSixteenBits) => number % (1 << 16),
            Some(M::PairOfThirtyTwoBits) => number % (1 << 32),
            _ => number,
        });
        let answer = match &self.places {
            Err(number) if self.tests_before(*number) && (line == 0 || column == 0) => Err(NO_SUCH_PLACE),
            Err(number) => Err(*number),
            Ok(places) => self.offset_of(places, line, column).ok_or(self.none()),
        };
        answer.map_or_else(|number| number, |offset| word(ACCEPTED, &[offset as usize]))
    }

    fn has(&self, misreading: M) -> bool {
        self.reading.has(misreading)
    }

    /// Whether 11 is tested before the number.
    fn tests_before(&self, number: u64) -> bool {
        match number {
            LONG_FILE => self.has(M::NoSuchPlaceBeforeLongFile),
            _ => self.has(M::NoSuchPlaceBeforeInvalidUtf8),
        }
    }

    /// The number where no place is found.
    fn none(&self) -> u64 {
        if self.has(M::TextIsJudgedUpToThePlace) && !self.is_text { INVALID_UTF8 } else { NO_SUCH_PLACE }
    }

    fn place_of(&self, places: &[Place], offset: u64) -> Option<Place> {
        match places.binary_search_by_key(&offset, |place| place.offset) {
            Ok(at) => Some(places[at]),
            Err(at) if self.has(M::InsideACharacter) && offset <= self.length => Some(places[at - 1]),
            Err(_) => None,
        }
    }

    fn offset_of(&self, places: &[Place], line: u64, column: u64) -> Option<u64> {
        let line = if self.has(M::LineZeroIsTheFirst) { line.max(1) } else { line };
        let column = if self.has(M::ColumnZeroIsTheFirst) { column.max(1) } else { column };
        let at = places.partition_point(|place| (place.line, place.column) < (line, column));
        let before = at.checked_sub(1).map(|at| places[at]);
        match (places.get(at), before) {
            (Some(place), _) if (place.line, place.column) == (line, column) => {
                let is_end = place.offset == self.length;
                let is_line_feed = places.get(at + 1).is_some_and(|next| next.line > line);
                let left_out = is_end && self.has(M::EndHasNoPair) || is_line_feed && self.has(M::LineFeedHasNoPair);
                (!left_out).then_some(place.offset)
            }
            (next, Some(before)) if before.line == line => match self.reading.wrong {
                Some(M::PairBehindALineIsTheNextLine) if column == before.column + 1 => next.map(|next| next.offset),
                Some(M::PairBehindALineIsItsEnd) => Some(before.offset),
                _ => None,
            },
            (None, Some(end)) if self.has(M::PairBehindTheLastLineIsTheEnd) => Some(end.offset),
            _ => None,
        }
    }
}

#[derive(Clone, Copy)]
struct Reading {
    wrong: Option<M>,
}

impl Reading {
    fn has(self, misreading: M) -> bool {
        self.wrong == Some(misreading)
    }

    /// The text of a source that is neither too long nor damaged.
    fn tested(self, source: &[u8]) -> Result<Cow<'_, str>, u64> {
        let limit = match self.wrong {
            Some(M::LongFileAtTheLimit) => SOURCE_LIMIT - 1,
            Some(M::LongFileOneLater) => SOURCE_LIMIT + 1,
            _ => SOURCE_LIMIT,
        };
        let length = if self.has(M::LengthOfSixteenBits) { source.len() % (1 << 16) } else { source.len() };
        match self.text(source) {
            None if length > limit && self.has(M::InvalidUtf8BeforeLongFile) => Err(INVALID_UTF8),
            _ if length > limit => Err(LONG_FILE),
            None => Err(INVALID_UTF8),
            Some(text) => Ok(text),
        }
    }

    /// A misreading takes the damaged sequences of one sort for a character of their length.
    fn text(self, source: &[u8]) -> Option<Cow<'_, str>> {
        if let Ok(text) = std::str::from_utf8(source) {
            return Some(Cow::Borrowed(text));
        }
        let mut mended = source.to_vec();
        let mut from = 0;
        while let Err(error) = std::str::from_utf8(&mended[from..]) {
            from += error.valid_up_to();
            if self.has(M::TextIsJudgedUpToThePlace) {
                mended.truncate(from);
                break;
            }
            let (sort, length) = damage(&mended[from..], error.error_len());
            if !self.has(sort) {
                return None;
            }
            mended[from..from + length].copy_from_slice(["a", "é", "€", "😀"][length - 1].as_bytes());
        }
        String::from_utf8(mended).ok().map(Cow::Owned)
    }

    /// Every character's offset and the length, with the line, which is 1 and one more for each line feed before it, and the
    /// column, which is 1 and one more for each character before it in its line.
    fn places(self, text: &str) -> Vec<Place> {
        let mut places = vec![];
        let (mut line, mut column) = (1, 1);
        let mut rest = text.char_indices().peekable();
        while let Some((offset, character)) = rest.next() {
            let next = rest.peek().map(|(_, next)| *next);
            let place = Place { offset: offset as u64, line, column };
            let ends_line = self.ends_line(character, next);
            if ends_line && self.has(M::LineFeedIsOfTheNextLine) {
                (line, column) = (line + 1, 2);
                places.push(Place { line, column: 1, ..place });
                continue;
            }
            if !(ends_line && self.has(M::LineFeedHasNoPlace)) {
                places.push(place);
            }
            if ends_line {
                (line, column) = (line + 1, 1);
            } else {
                column += self.columns(offset, character, next);
            }
        }
        if !self.has(M::EndHasNoPlace) {
            places.push(Place { offset: text.len() as u64, line, column });
        }
        for place in &mut places {
            place.line -= u64::from(self.has(M::LinesFromZero));
            place.column -= u64::from(self.has(M::ColumnsFromZero));
        }
        places
    }

    fn ends_line(self, character: char, next: Option<char>) -> bool {
        match character {
            '\n' => next.is_some() || !self.has(M::LineFeedAtTheEndEndsNoLine),
            '\r' if self.has(M::CarriageReturnAndLineFeedAreOneEnd) => next != Some('\n'),
            '\r' => self.has(M::CarriageReturnEndsALine) || self.has(M::AnyLineEndEndsALine),
            '\u{b}' | '\u{2028}' | '\u{2029}' => self.has(M::AnyLineEndEndsALine),
            '\u{85}' => self.has(M::NextLineEndsALine),
            '\u{c}' => self.has(M::FormFeedEndsALine),
            _ => false,
        }
    }

    /// How many columns a character takes that ends no line.
    fn columns(self, offset: usize, character: char, next: Option<char>) -> u64 {
        let is_mark = |character| ('\u{300}'..='\u{36f}').contains(&character);
        match self.wrong {
            Some(M::ColumnInBytes) => character.len_utf8() as u64,
            Some(M::ColumnInSixteenBitUnits) => character.len_utf16() as u64,
            // the mark has the column of what it stands on
            Some(M::CombiningMarksHaveNoColumn) => u64::from(!next.is_some_and(is_mark)),
            Some(M::ByteOrderMarkHasNoColumn) => u64::from(character != '\u{feff}' || offset > 0),
            Some(M::CarriageReturnAndLineFeedAreOneColumn) => u64::from((character, next) != ('\r', Some('\n'))),
            _ => 1,
        }
    }
}

/// The sort of the damaged sequence that the bytes begin with, and how many bytes it has. The error's length is none where the
/// source ends inside a character.
fn damage(bytes: &[u8], error: Option<usize>) -> (M, usize) {
    let Some(error) = error else { return (M::CharacterCutByTheEndIsText, bytes.len()) };
    let is_whole = |length: usize| bytes.len() >= length && bytes[1..length].iter().all(|byte| byte & 0xc0 == 0x80);
    match *bytes {
        [0x80..=0xbf, ..] => (M::LoneContinuationIsText, 1),
        [0xf8..=0xff, ..] => (M::ImpossibleBytesAreText, 1),
        [0xc0 | 0xc1, ..] if is_whole(2) => (M::OverlongFormsAreText, 2),
        [0xe0, 0x80..=0x9f, ..] if is_whole(3) => (M::OverlongFormsAreText, 3),
        [0xed, 0xa0..=0xbf, ..] if is_whole(3) => (M::SurrogatesAreText, 3),
        [0xf0, 0x80..=0x8f, ..] if is_whole(4) => (M::OverlongFormsAreText, 4),
        [0xf4, 0x90..=0xbf, ..] | [0xf5..=0xf7, ..] if is_whole(4) => (M::CharactersPastTheLastAreText, 4),
        _ => (M::CutCharacterIsText, error),
    }
}

#[cfg(test)]
mod tests {
    use super::*;

    const TEXTS: [&str; 8] = [
        "",
        "a",
        "\n",
        "é\n\n€😀b\r\n\u{2028}c\u{85}\u{b}\u{301}",
        "\u{feff}a\n",
        "\r\r\n\n\ré",
        "ab\ncd\nef",
        "😀\n\n\n",
    ];

    fn accepted(model: &Model, offset: usize) -> Option<(u64, u64)> {
        match model.answer(Call::LineColumn(offset as u64), [7, 9]) {
            (ACCEPTED, [line, column]) => Some((line.into(), column.into())),
            refused => {
                assert_eq!(refused, (NO_SUCH_PLACE, [7, 9]));
                None
            }
        }
    }

    #[test]
    fn lines_and_columns_are_counted_as_02_says() {
        for text in TEXTS {
            let model = Model::new(text.as_bytes(), None);
            for offset in 0..text.len() + 3 {
                let expected = text.get(..offset).map(|before| {
                    let start = before.rfind('\n').map_or(0, |at| at + 1);
                    (1 + before.matches('\n').count() as u64, 1 + text[start..offset].chars().count() as u64)
                });
                assert_eq!(accepted(&model, offset), expected, "{offset} of {text:?}");
            }
        }
    }

    #[test]
    fn a_pair_has_the_one_offset_that_has_it_or_none() {
        for text in TEXTS {
            let model = Model::new(text.as_bytes(), None);
            for (line, column) in (0..9).flat_map(|line| (0..19).map(move |column| (line, column))) {
                let offsets: Vec<usize> =
                    (0..=text.len()).filter(|offset| accepted(&model, *offset) == Some((line, column))).collect();
                let expected = match offsets[..] {
                    [] => NO_SUCH_PLACE,
                    [offset] => word(ACCEPTED, &[offset]),
                    _ => panic!("{offsets:?} have one place in {text:?}"),
                };
                assert_eq!(model.answer(Call::OffsetAt(line, column), [7, 9]), (expected, [7, 9]));
            }
        }
    }

    #[test]
    fn every_sort_of_damage_has_a_name() {
        let sorts: [(&[u8], M, usize); 12] = [
            (b"\x80", M::LoneContinuationIsText, 1),
            (b"\xff", M::ImpossibleBytesAreText, 1),
            (b"\xc1\xbf", M::OverlongFormsAreText, 2),
            (b"\xe0\x9f\xbf", M::OverlongFormsAreText, 3),
            (b"\xf0\x8f\xbf\xbf", M::OverlongFormsAreText, 4),
            (b"\xed\xa0\x80", M::SurrogatesAreText, 3),
            (b"\xf4\x90\x80\x80", M::CharactersPastTheLastAreText, 4),
            (b"\xf5\x80\x80\x80", M::CharactersPastTheLastAreText, 4),
            (b"\xc3a", M::CutCharacterIsText, 1),
            (b"\xe2\x82a", M::CutCharacterIsText, 2),
            (b"\xf0\x9f\x98a", M::CutCharacterIsText, 3),
            (b"\xf0\x9f\x98", M::CharacterCutByTheEndIsText, 3),
        ];
        for (bytes, sort, length) in sorts {
            let error = std::str::from_utf8(bytes).map_err(|error| error.error_len()).err().flatten();
            assert_eq!(damage(bytes, error), (sort, length), "{bytes:x?}");
            assert_eq!(Model::new(bytes, None).places, Err(INVALID_UTF8));
            let end = Model::new(bytes, Some(sort)).places.map(|places| places.last().map(|place| place.offset));
            assert_eq!(end, Ok(Some(bytes.len() as u64)));
        }
    }
}
