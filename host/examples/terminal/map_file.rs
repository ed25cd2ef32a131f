//! The map file: a name and an id a line.

use crate::message::{Level, Message};
use crate::source::Source;
use std::collections::HashMap;
use std::ops::Range;
use troymantle::Map;

/// The most bytes of a map file.
pub const MOST_BYTES: usize = 1_048_576;

/// A map, and where the name of each of its entries stands in the file.
#[derive(Default)]
pub struct MapFile {
    pub map: Map,
    pub names: Vec<Range<usize>>,
}

/// An entry of the map, or what is wrong with its line, and where.
type Line<'a> = Result<Entry<'a>, (Range<usize>, String)>;

#[derive(Debug, PartialEq, Eq)]
struct Entry<'a> {
    name: &'a str,
    span: Range<usize>,
    id: u16,
}

/// Reads a map; where something is wrong, everything that is.
pub fn read(source: &Source) -> Result<MapFile, Vec<Message>> {
    if source.bytes.len() > MOST_BYTES {
        return Err(vec![Message::of_file(&source.name, "a map file has at most 1,048,576 bytes")]);
    }
    if let Some(place) = source.invalid_utf8() {
        return Err(vec![Message::at(Level::Error, source, &place, "the file is not UTF-8 from here on")]);
    }
    let mut file = MapFile::default();
    let mut first: HashMap<&str, Range<usize>> = HashMap::new();
    let mut wrong = vec![];
    let mut start = 0;
    for text in source.text.split_inclusive('\n') {
        match line(text, start) {
            Some(Ok(entry)) => match first.get(entry.name) {
                Some(earlier) => wrong.push(repeated(source, &entry, earlier)),
                None => {
                    wrong.extend(add(&mut file, source, &entry));
                    first.insert(entry.name, entry.span);
                }
            },
            Some(Err((span, words))) => wrong.push(Message::at(Level::Error, source, &span, words)),
            None => {}
        }
        start += text.len();
    }
    if wrong.is_empty() { Ok(file) } else { Err(wrong) }
}

fn add(file: &mut MapFile, source: &Source, entry: &Entry) -> Option<Message> {
    file.names.push(entry.span.clone());
    let error = file.map.add(entry.name, entry.id).err()?;
    Some(Message::at(Level::Error, source, &entry.span, error.to_string()))
}

fn repeated(source: &Source, entry: &Entry, earlier: &Range<usize>) -> Message {
    let note = Message::at(Level::Note, source, earlier, "first here");
    let message = Message::at(Level::Error, source, &entry.span, "this name has an id already");
    message.with_name(entry.name).with_note(note)
}

/// What a line says that starts at that byte; nothing where it is blank or starts with `#`.
fn line(text: &str, start: usize) -> Option<Line<'_>> {
    let rest = text.trim_start();
    if rest.is_empty() || rest.starts_with('#') {
        return None;
    }
    let start = start + text.len() - rest.len();
    Some(entry(rest.trim_end(), start))
}

fn entry(text: &str, start: usize) -> Line<'_> {
    let (name, at, rest) = name(text, start)?;
    let span = at..at + name.len();
    let id = rest.trim_start();
    let id_start = start + text.len() - id.len();
    if id.is_empty() {
        return Err((start..start + text.len(), "the id is missing: a line is a name, a blank and an id".to_string()));
    }
    let word = id.split_whitespace().next().unwrap_or_default();
    let number = if word.bytes().all(|byte| byte.is_ascii_digit()) { word.parse().ok() } else { None };
    match number {
        None => Err((id_start..id_start + word.len(), "an id is a number from 0 to 65,535".to_string())),
        Some(_) if word.len() < id.len() => {
            let more = id.strip_prefix(word).unwrap_or_default().trim_start();
            let more_start = start + text.len() - more.len();
            Err((more_start..start + text.len(), "nothing may follow the id".to_string()))
        }
        Some(id) => Ok(Entry { name, span, id }),
    }
}

/// The name at a line's start, where it starts, and what follows.
fn name(text: &str, start: usize) -> Result<(&str, usize, &str), (Range<usize>, String)> {
    let mut quoted = text.chars();
    let Some(quote @ ('"' | '\'')) = quoted.next() else {
        let (name, rest) =
            text.split_at_checked(text.find(char::is_whitespace).unwrap_or(text.len())).unwrap_or_default();
        return Ok((name, start, rest));
    };
    let whole = start..start + text.len();
    let Some((name, rest)) = quoted.as_str().split_once(quote) else {
        return Err((whole, format!("the name has no closing {quote}")));
    };
    if name.is_empty() {
        return Err((start..start + 2, "a name has at least one character".to_string()));
    }
    if !rest.is_empty() && !rest.starts_with(char::is_whitespace) {
        return Err((start + name.len() + 2..whole.end, format!("a blank is missing behind the closing {quote}")));
    }
    Ok((name, start + 1, rest))
}

#[cfg(test)]
mod tests {
    use super::*;
    use crate::paint::Paint;

    fn source(text: &str) -> Source {
        Source::new("m", text.as_bytes().to_vec())
    }

    fn wrong(text: &str) -> String {
        let messages = read(&source(text)).err().unwrap_or_default();
        messages.iter().map(|message| message.lines(Paint { on: false })).collect()
    }

    #[test]
    fn entries_are_read() {
        let file = read(&source("# all\n\n  \nRACE 256\r\n\tWIN\t0\n'two words'  7\n\"it's\" 65535")).ok().unwrap();
        let entries: Vec<_> = (0..file.map.len()).filter_map(|number| file.map.entry(number)).collect();
        let expected = [("RACE", 256), ("WIN", 0), ("two words", 7), ("it's", 65_535)];
        assert_eq!(entries, expected.map(|(name, id)| (name.into(), id)));
        assert_eq!(file.names, [10..14, 21..24, 28..37, 43..47]);
        assert!(read(&source("")).ok().unwrap().map.is_empty());
    }

    #[test]
    fn ids_are_numbers_of_two_bytes() {
        let told = "m:1:3: error: an id is a number from 0 to 65,535\n";
        for id in ["65536", "-1", "+1", "x", "1x", "0x1", "99999999999999999999", "1,000"] {
            let carets = format!("^{}", "~".repeat(id.len() - 1));
            assert_eq!(wrong(&format!("é {id}")), format!("{told}    é {id}\n      {carets}\n"));
        }
    }

    #[test]
    fn wrong_lines_are_told() {
        let missing = "error: the id is missing: a line is a name, a blank and an id\n";
        assert_eq!(wrong("A 1\n  WIN  \n"), format!("m:2:3: {missing}      WIN  \n      ^~~\n"));
        assert_eq!(wrong("'A'"), format!("m:1:1: {missing}    'A'\n    ^~~\n"));
        assert_eq!(wrong("A 1 2"), "m:1:5: error: nothing may follow the id\n    A 1 2\n        ^\n");
        assert_eq!(wrong("A 11 1"), "m:1:6: error: nothing may follow the id\n    A 11 1\n         ^\n");
        assert_eq!(wrong("'A 1"), "m:1:1: error: the name has no closing '\n    'A 1\n    ^~~~\n");
        assert_eq!(wrong("'' 1"), "m:1:1: error: a name has at least one character\n    '' 1\n    ^~\n");
        assert_eq!(wrong("\"A\"1"), "m:1:4: error: a blank is missing behind the closing \"\n    \"A\"1\n       ^\n");
    }

    #[test]
    fn a_repeated_name_is_told_with_both_lines() {
        let told =
            "m:2:2: error: this name has an id already\n    'A' 2\n     ^\nm:1:1: note: first here\n    A 1\n    ^\n";
        assert_eq!(wrong("A 1\n'A' 2\nB 2\n"), told);
        assert_eq!(wrong("A 1\nA 2\nA 1\n").matches("first here").count(), 2);
    }

    #[test]
    fn names_that_a_map_has_no_room_for_are_told() {
        let long = "n".repeat(65_536);
        assert!(wrong(&format!("{long} 1")).contains("error: a map holds a name of at most 65,535 bytes"));
    }

    #[test]
    fn far_behind_a_lines_start_the_file_alone_is_told() {
        let told = "error: an id is a number from 0 to 65,535\n";
        assert!(wrong(&format!("{} x", "n".repeat(65_534))).starts_with(&format!("m:1:65536: {told}")));
        assert_eq!(wrong(&format!("{} x", "n".repeat(65_535))), format!("m: {told}"));
    }

    #[test]
    fn a_map_is_text_of_a_limited_length() {
        let messages = read(&Source::new("m", b"A 1\nB\xff 2".to_vec())).err().unwrap();
        let told = "m:2:2: error: the file is not UTF-8 from here on\n    B\u{fffd} 2\n     ^\n";
        assert_eq!(messages[0].lines(Paint { on: false }), told);
        assert!(wrong(&"#\n".repeat(MOST_BYTES / 2)).is_empty());
        assert_eq!(wrong(&"#".repeat(MOST_BYTES + 1)), "m: error: a map file has at most 1,048,576 bytes\n");
    }
}
