//! Files, and parts of them with their lines and columns.

use crate::places::Places;
use crate::width;
use std::fs::File;
use std::io::{self, Read};
use std::ops::Range;
use std::path::Path;
use troymantle::Place;

/// A line above so many characters is shown in part.
const MOST_SHOWN: usize = 120;
/// Of such a line so many characters are shown before a place.
const MOST_BEFORE: usize = 40;

/// A file that messages tell of.
pub struct Source {
    /// Its name, as messages have it.
    pub name: String,
    /// Its bytes.
    pub bytes: Vec<u8>,
    /// The same as text. Behind the first byte that is not UTF-8 places in it are not those of the bytes.
    pub text: String,
    places: Places,
}

/// A part of a file, ready to be shown.
#[derive(Clone, Debug, PartialEq, Eq)]
pub struct Excerpt {
    pub file: String,
    /// The line and column where the part starts.
    pub place: Place,
    /// The byte where it starts, and how many it has.
    pub start: usize,
    pub length: usize,
    /// The line of the part's start, and a line that marks the part below it.
    pub shown: String,
    pub marks: String,
}

impl Source {
    pub fn new(name: &str, bytes: Vec<u8>) -> Source {
        let text = String::from_utf8_lossy(&bytes).into_owned();
        Source { name: visible(name), bytes, places: Places::default(), text }
    }

    /// Reads a file, but no more than one byte above `most`: whoever asks refuses a file that has as many.
    pub fn read(path: &Path, most: usize) -> io::Result<Source> {
        let mut bytes = vec![];
        File::open(path)?.take(most as u64 + 1).read_to_end(&mut bytes)?;
        Ok(Source::new(&path.to_string_lossy(), bytes))
    }

    /// The place of the first byte that is not UTF-8, if there is one.
    pub fn invalid_utf8(&self) -> Option<Range<usize>> {
        let error = std::str::from_utf8(&self.bytes).err()?;
        Some(error.valid_up_to()..error.valid_up_to())
    }

    /// A part of the file; none where its start has no line and column.
    pub fn excerpt(&self, span: &Range<usize>) -> Option<Excerpt> {
        let start = character_edge(&self.text, span.start);
        let end = character_edge(&self.text, span.end).max(start);
        let place = self.places.place(&self.text, start)?;
        let (left, right) = self.line(start);
        let (shown, marks) = marked(left, right, end - start);
        Some(Excerpt { file: self.name.clone(), place, start: span.start, length: span.len(), shown, marks })
    }

    /// The line that a byte stands in: what is left of the byte, and the rest without the line's end.
    pub fn line(&self, byte: usize) -> (&str, &str) {
        let (before, behind) = self.text.split_at_checked(character_edge(&self.text, byte)).unwrap_or_default();
        let (left, right) = (before.rsplit('\n').next(), behind.split('\n').next());
        (left.unwrap_or_default(), right.unwrap_or_default().trim_end_matches('\r'))
    }
}

/// The last edge between two characters that is not behind a byte.
fn character_edge(text: &str, byte: usize) -> usize {
    (0..=byte.min(text.len())).rev().find(|edge| text.is_char_boundary(*edge)).unwrap_or(0)
}

/// `left` and `right` as one line, and below it `^` or `^~~~` under so many bytes of `right`, cut at its end.
/// Of a long line only what stands around them is shown. Tabs stay, so that the marks stand right.
pub fn marked(left: &str, right: &str, length: usize) -> (String, String) {
    let part = right.get(..length).unwrap_or(right);
    let long = left.chars().count() + right.chars().count() > MOST_SHOWN;
    let near = if long { last(left, MOST_BEFORE) } else { left };
    let rest = if long { first(right, MOST_SHOWN - near.chars().count()) } else { right };
    let cut = |is_cut: bool| if is_cut { "..." } else { "" };
    let (before, behind) = (cut(near.len() < left.len()), cut(rest.len() < right.len()));
    let shown = format!("{before}{}{}{behind}", visible(near), visible(rest));
    let marked = if part.len() < rest.len() { part } else { rest };
    let mut marks = format!("{}{}^", " ".repeat(before.len()), blanks(&visible(near)));
    marks.extend(std::iter::repeat_n('~', width::of(&visible(marked)).saturating_sub(1)));
    (shown, marks)
}

/// Blanks as wide as a text; tabs stay.
fn blanks(text: &str) -> String {
    text.chars().map(|c| if c == '\t' { "\t".to_string() } else { " ".repeat(width::of_character(c)) }).collect()
}

/// The start of a long line.
pub fn shortened(line: &str) -> String {
    let shown = first(line, MOST_SHOWN);
    format!("{shown}{}", if shown.len() < line.len() { "..." } else { "" })
}

fn first(text: &str, characters: usize) -> &str {
    text.char_indices().nth(characters).and_then(|(edge, _)| text.get(..edge)).unwrap_or(text)
}

fn last(text: &str, characters: usize) -> &str {
    text.char_indices().rev().take(characters).last().and_then(|(edge, _)| text.get(edge..)).unwrap_or_default()
}

/// A text for a terminal: one visible character for each, but that tabs stay. Controls have Unicode's pictures of them;
/// what has no width or turns the text around is shown as U+FFFD.
pub fn visible(text: &str) -> String {
    text.chars().map(visible_character).collect()
}

fn visible_character(c: char) -> char {
    match c {
        '\t' => '\t',
        '\u{0}'..='\u{1f}' => char::from_u32(0x2400 + u32::from(c)).unwrap_or(char::REPLACEMENT_CHARACTER),
        '\u{7f}' => '\u{2421}',
        '\u{80}'..='\u{9f}'
        | '\u{200b}'..='\u{200f}'
        | '\u{2028}'..='\u{202e}'
        | '\u{2060}'..='\u{206f}'
        | '\u{feff}' => char::REPLACEMENT_CHARACTER,
        other => other,
    }
}

/// A number with commas: 65,535.
pub fn grouped(number: usize) -> String {
    let digits = number.to_string();
    let mut text = String::new();
    for (at, digit) in digits.chars().enumerate() {
        if at > 0 && (digits.len() - at).is_multiple_of(3) {
            text.push(',');
        }
        text.push(digit);
    }
    text
}

#[cfg(test)]
mod tests {
    use super::*;

    fn excerpt(text: &str, span: Range<usize>) -> Excerpt {
        Source::new("f", text.as_bytes().to_vec()).excerpt(&span).unwrap()
    }

    fn place(line: u32, column: u32) -> Place {
        Place { line, column }
    }

    #[test]
    fn columns_count_characters() {
        let text = "%%\nä€😀 'N'\n";
        let at = text.find('N').unwrap();
        let found = excerpt(text, at..at + 1);
        assert_eq!((found.place, found.start, found.length), (place(2, 6), at, 1));
        assert_eq!(found.shown, "ä€😀 'N'");
        // the picture is two columns wide
        assert_eq!(found.marks, "      ^");
        let at = text.find('€').unwrap();
        assert_eq!(excerpt(text, at..at + 7).marks, " ^~~");
        assert_eq!(excerpt("e\u{301}x", 3..4).marks, " ^");
    }

    #[test]
    fn tabs_stay_before_the_caret() {
        let found = excerpt("\ta\tbcd\n", 3..6);
        assert_eq!(found.place, place(1, 4));
        assert_eq!(found.shown, "\ta\tbcd");
        assert_eq!(found.marks, "\t \t^~~");
    }

    #[test]
    fn marks_end_with_the_line() {
        assert_eq!(excerpt("ab\ncd", 1..5).marks, " ^");
        assert_eq!(excerpt("abc\r\nd", 1..6).marks, " ^~");
        assert_eq!(excerpt("abc\r\nd", 1..6).shown, "abc");
        assert_eq!(excerpt("ab", 0..9).marks, "^~");
    }

    #[test]
    fn long_lines_are_shown_in_part() {
        let whole = "é".repeat(120);
        assert_eq!(marked("", &whole, 2), (whole.clone(), "^".to_string()));
        let (shown, marks) = marked(&format!("0{}", "é".repeat(40)), &format!("{whole}1"), 400);
        assert_eq!(shown, format!("...{}{}...", "é".repeat(40), "é".repeat(80)));
        assert_eq!(marks, format!("{}^{}", " ".repeat(43), "~".repeat(79)));
        let (shown, marks) = marked(&whole, "x", 1);
        assert_eq!((shown.chars().count(), marks.chars().count()), (44, 44));
    }

    #[test]
    fn only_line_feeds_end_lines() {
        let text = "a\u{2028}b\rc\u{b}d\ne";
        assert_eq!(excerpt(text, text.len() - 1..text.len()).place, place(2, 1));
        let found = excerpt(text, text.len() - 3..text.len() - 2);
        assert_eq!(found.place, place(1, 7));
        assert_eq!(found.shown, "a\u{fffd}b\u{240d}c\u{240b}d");
    }

    #[test]
    fn the_end_has_a_place() {
        let found = excerpt("ab\n", 3..3);
        assert_eq!((found.place, found.shown.as_str(), found.marks.as_str()), (place(2, 1), "", "^"));
        let found = excerpt("", 0..0);
        assert_eq!((found.place, found.shown.as_str(), found.marks.as_str()), (place(1, 1), "", "^"));
        assert_eq!(excerpt("ab", 7..9).place, place(1, 3));
    }

    #[test]
    fn places_inside_a_character_are_its_start() {
        let found = excerpt("é1", 1..3);
        assert_eq!((found.place, found.marks.as_str()), (place(1, 1), "^~"));
    }

    #[test]
    fn bytes_that_are_not_utf8_have_a_place() {
        let source = Source::new("f", b"a\nb\xffc".to_vec());
        let found = source.excerpt(&source.invalid_utf8().unwrap()).unwrap();
        assert_eq!((found.place, found.shown.as_str()), (place(2, 2), "b\u{fffd}c"));
    }

    #[test]
    fn controls_are_shown() {
        assert_eq!(visible("a\tb\u{1b}[0m\u{7f}\u{85}\u{202e}"), "a\tb\u{241b}[0m\u{2421}\u{fffd}\u{fffd}");
    }

    #[test]
    fn thousands_have_commas() {
        let texts = [0, 999, 1_000, 65_535, 1_048_576].map(grouped);
        assert_eq!(texts, ["0", "999", "1,000", "65,535", "1,048,576"]);
    }
}
