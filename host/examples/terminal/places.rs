//! Lines and columns of the files that messages tell of.
//!
//! Those of a lex file are the library's own. A map may be longer than the library's calls take, and very many messages may be
//! about it: there the lines are counted here, and the library is asked for the column in one line.

use std::cell::OnceCell;
use troymantle::{Place, Refusal};

/// The places of one text.
#[derive(Default)]
pub struct Places {
    /// Where each line of a long text starts, once it is asked for.
    starts: OnceCell<Vec<usize>>,
}

impl Places {
    /// The place of an offset of that text. None where the offset is above its length or inside a character; none either in a
    /// long text where the offset is more than 65,535 bytes behind the start of its line.
    pub fn place(&self, text: &str, offset: usize) -> Option<Place> {
        match Place::of(text, offset) {
            Err(Refusal::LongFile) => self.place_in_line(text, offset),
            place => place.ok(),
        }
    }

    fn place_in_line(&self, text: &str, offset: usize) -> Option<Place> {
        let starts = self.starts.get_or_init(|| starts(text));
        let line = starts.partition_point(|start| *start <= offset);
        let start = starts.get(..line)?.last()?;
        let left = text.get(*start..offset)?;
        let Place { column, .. } = Place::of(left, left.len()).ok()?;
        Some(Place { line: u32::try_from(line).ok()?, column })
    }
}

fn starts(text: &str) -> Vec<usize> {
    [0].into_iter().chain(text.match_indices('\n').map(|(at, end)| at + end.len())).collect()
}

#[cfg(test)]
mod tests {
    use super::*;

    /// Every offset of a text that the calls take, and some above its length: by lines as by one call.
    fn check(text: &str) {
        let places = Places::default();
        for offset in (0..text.len() + 5).chain([usize::MAX]) {
            let expected = Place::of(text, offset).ok();
            let found = (places.place(text, offset), places.place_in_line(text, offset));
            assert_eq!(found, (expected, expected), "{offset} of {text:?}");
        }
    }

    #[test]
    fn lines_are_as_the_library_has_them() {
        for text in
            ["", "\n", "\n\n", "a", "é", "aé€😀", "😀\n€\né\na", "a\r\nb\r\n", "\r\r\n\r", "a\u{2028}b\u{85}\u{b}\nc"]
        {
            check(text);
        }
        for shift in 0..5 {
            for piece in ["é", "€", "😀", "a\r\n", "\r\n", "\n", "€\n", "aé€😀\n", "a line of usual length ;\n"]
            {
                check(&("a".repeat(shift) + &piece.repeat(400 / piece.len())));
            }
        }
    }

    #[test]
    fn random_lines_are_as_the_library_has_them() {
        let mut state = 1_u64;
        let mut below = |most: usize| {
            state = state.wrapping_mul(6_364_136_223_846_793_005).wrapping_add(1);
            (state >> 33) as usize % most
        };
        let pieces = ["a", "\n", "\r\n", "é", "€", "😀"];
        for _ in 0..200 {
            check(&(0..below(200)).map(|_| pieces[below(pieces.len())]).collect::<String>());
        }
    }

    /// One character more than the calls take changes no place before it.
    #[test]
    fn a_text_that_is_too_long_for_a_call_has_the_same_places() {
        let text = "aé€😀\r\n".repeat(5_461) + "abc";
        assert_eq!(text.len(), 65_535);
        let longer = text.clone() + "\n";
        assert_eq!(Place::of(&longer, 0), Err(Refusal::LongFile));
        let (places, longer_places) = (Places::default(), Places::default());
        for offset in (0..65_536).step_by(53).chain([65_533, 65_534, 65_535]) {
            let expected = Place::of(&text, offset).ok();
            assert_eq!((places.place(&text, offset), longer_places.place(&longer, offset)), (expected, expected));
        }
        assert_eq!(longer_places.place(&longer, 65_536), Some(Place { line: 5_463, column: 1 }));
        assert_eq!(longer_places.place(&longer, 65_537), None);
    }

    #[test]
    fn long_texts_have_places_where_their_lines_are_short() {
        let text = "é\n".repeat(100_000) + &"a".repeat(65_536) + "\nb";
        let places = Places::default();
        let told = [(0, 1, 1), (2, 1, 2), (299_999, 100_000, 2), (300_000, 100_001, 1), (365_535, 100_001, 65_536)];
        for (offset, line, column) in told {
            assert_eq!(places.place(&text, offset), Some(Place { line, column }));
        }
        assert_eq!(places.place(&text, text.len()), Some(Place { line: 100_002, column: 2 }));
        // inside a character, and too far behind the line's start
        assert_eq!([1, 299_998, 365_536].map(|offset| places.place(&text, offset)), [None, None, None]);
    }
}
