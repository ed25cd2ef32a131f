//! Lines and columns of texts that are as long as a source may be.

use super::shape::{Around, Note, Shape, Work, timed, timed_by};
use crate::answers::{ACCEPTED, word};
use crate::case::SOURCE_LIMIT;
use crate::library::Library;
use crate::place::{self, Place};
use original::NewlineCache;
use std::time::Duration;

/// What a shape's name calls a line, and how many bytes the line of a number has at least.
type Lines = (&'static str, fn(usize) -> usize);
const LINES: [Lines; 3] =
    [("short lines", |number| 20 + number * 7 % 20), ("long lines", |_| 1_999), ("one line", |_| SOURCE_LIMIT)];

/// What a shape's name calls the characters, and the character of a number.
type Characters = (&'static str, fn(usize) -> char);
const CHARACTERS: [Characters; 2] = [("ASCII", letter), ("mixed", mixed)];

/// What a shape's name calls the offset, which is that of the last character that begins at this byte or before.
const OFFSETS: [(&str, usize); 2] = [("end", SOURCE_LIMIT - 1), ("middle", SOURCE_LIMIT / 2)];

#[derive(Clone, Copy)]
enum Way {
    There,
    Back,
}

pub fn shapes() -> Vec<Shape> {
    let mut shapes = vec![];
    for way in [Way::There, Way::Back] {
        for (lines, line) in LINES {
            for (characters, character) in CHARACTERS {
                for (place, byte) in OFFSETS {
                    let name = format!("place: {}, {lines}, {characters}, {place}", way.call());
                    shapes.push(Shape::new(name, way.function(), 1, move || way.work(text(line, character), byte)));
                }
            }
        }
    }
    shapes
}

impl Way {
    fn function(self) -> &'static str {
        match self {
            Way::There => "troymantle_line_column",
            Way::Back => "troymantle_offset_at",
        }
    }

    fn call(self) -> &'static str {
        self.function().trim_start_matches("troymantle_")
    }

    fn work(self, text: String, byte: usize) -> Work {
        let place = place::place_of(&text, text.floor_char_boundary(byte));
        let [source, bytes] = [(); 2].map(|()| text.clone().into_bytes());
        Work {
            bytes: text.len(),
            original: Box::new(move |around| self.time_original(around, &text, place)),
            ours: Box::new(move |library| self.time_ours(library, &source, place)),
            note: Some(Note::TextCheck(Box::new(move || self.time_with_check(&bytes, place)))),
        }
    }

    /// The cache is made by every call, as ours takes the whole source.
    fn time_original(self, around: Around, text: &str, place: Place) -> Duration {
        timed_by(around, || (), |()| self.original(text, place))
    }

    /// Our call judges the bytes too.
    fn time_with_check(self, bytes: &[u8], place: Place) -> Duration {
        let text = |bytes| std::str::from_utf8(bytes).expect("the bytes are text");
        timed(|| (), |()| self.original(text(std::hint::black_box(bytes)), place))
    }

    /// The cache is answered, so that its dropping is not timed.
    fn original(self, text: &str, place: Place) -> NewlineCache {
        let [offset, line, column] = [place.offset, place.line, place.column].map(|number| number as usize);
        let mut cache = NewlineCache::new();
        cache.feed(text);
        match self {
            Way::There => {
                let pair = cache.byte_to_line_num_and_col_num(text, offset);
                assert_eq!(pair, Some((line, column)), "the original has another place");
            }
            // the original goes no further than the line's start
            Way::Back => {
                let start = cache.line_byte_of(line).expect("the line is there");
                let found = text[start..].char_indices().nth(column - 1).map(|(at, _)| start + at);
                assert_eq!(found, Some(offset), "the original's line starts elsewhere");
            }
        }
        cache
    }

    fn time_ours(self, library: &Library, source: &[u8], place: Place) -> Duration {
        let Place { offset, line, column } = place;
        match self {
            Way::There => timed(
                || [0; 2],
                |told| {
                    let word = library.line_column(source, offset, told);
                    let right = (ACCEPTED, [line as u32, column as u32]);
                    assert_eq!((word, *told), right, "our library has another place");
                },
            ),
            Way::Back => timed(
                || word(ACCEPTED, &[offset as usize]),
                |right| assert_eq!(library.offset_at(source, line, column), *right, "our library has another offset"),
            ),
        }
    }
}

/// A source of the greatest length.
fn text(line: fn(usize) -> usize, character: fn(usize) -> char) -> String {
    let mut text = String::new();
    let (mut number, mut start) = (0, 0);
    for next in (0..).map(character) {
        let next = if text.len() - start >= line(number) { '\n' } else { next };
        if text.len() + next.len_utf8() > SOURCE_LIMIT {
            break;
        }
        text.push(next);
        if next == '\n' {
            (number, start) = (number + 1, text.len());
        }
    }
    text.push_str(&"z".repeat(SOURCE_LIMIT - text.len()));
    text
}

fn letter(number: usize) -> char {
    char::from(b'a' + (number % 26) as u8)
}

/// Three characters in 16 have 2, 3 and 4 bytes.
fn mixed(number: usize) -> char {
    match number % 16 {
        4 => 'é',
        9 => '€',
        14 => '😀',
        _ => letter(number),
    }
}

#[cfg(test)]
mod tests {
    use super::*;

    #[test]
    fn texts_are_full_and_have_their_lines() {
        let lines = |kind: usize, character| {
            let text = text(LINES[kind].1, character);
            assert_eq!(text.len(), SOURCE_LIMIT);
            text.split('\n').map(str::len).collect::<Vec<_>>()
        };
        for (_, character) in CHARACTERS {
            let short = lines(0, character);
            assert!(short[..short.len() - 1].iter().all(|length| (20..=42).contains(length)));
            assert!(lines(1, character)[..32].iter().all(|length| (1_999..=2_002).contains(length)));
            assert_eq!(lines(2, character), [SOURCE_LIMIT]);
        }
    }
}
