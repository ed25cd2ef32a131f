//! Entries: the lines of standard input, or words of the command line.

use std::io::{self, BufRead, Read};
use troymantle::numbers::MOST_ENTRY;

/// How many bytes of a line are kept: more than any entry may have.
const MOST_KEPT: usize = MOST_ENTRY + 1;

/// What was typed.
#[derive(Debug, PartialEq, Eq)]
pub struct Entry {
    /// Its bytes, without the line's end; of one that is too long for any caller the first ones.
    pub bytes: Vec<u8>,
    /// How many bytes it has.
    pub length: usize,
}

impl Entry {
    pub fn new(bytes: Vec<u8>) -> Entry {
        Entry { length: bytes.len(), bytes }
    }
}

/// The next line, if there is one. The end of a line is U+000A, or U+000D and U+000A. However long a line is, no more
/// of it is kept than tells that it is too long.
pub fn next_line(input: &mut impl BufRead) -> io::Result<Option<Entry>> {
    let mut bytes = vec![];
    // room for the two bytes of the line's end
    let mut length = input.take(MOST_KEPT as u64 + 2).read_until(b'\n', &mut bytes)?;
    if length == 0 {
        return Ok(None);
    }
    let mut end = end_length(&bytes);
    // a line without an end is the last one, unless there was no more room
    if end == 0 && length > MOST_KEPT {
        let (more, more_end) = skip_line(input, bytes.last() == Some(&b'\r'))?;
        length += more;
        end = more_end;
    }
    length -= end;
    bytes.truncate(length.min(MOST_KEPT));
    Ok(Some(Entry { bytes, length }))
}

/// How many bytes at the end of a line are its end.
fn end_length(line: &[u8]) -> usize {
    if line.ends_with(b"\r\n") { 2 } else { usize::from(line.ends_with(b"\n")) }
}

/// Passes over the rest of a line; answers how many bytes that were, and how many bytes the line's end has. The byte
/// before may have been a U+000D.
fn skip_line(input: &mut impl BufRead, mut carriage_return: bool) -> io::Result<(usize, usize)> {
    let mut passed = 0;
    loop {
        let buffer = match input.fill_buf() {
            Err(error) if error.kind() == io::ErrorKind::Interrupted => continue,
            buffer => buffer?,
        };
        let found = buffer.iter().position(|byte| *byte == b'\n');
        let text = buffer.get(..found.unwrap_or(buffer.len())).unwrap_or_default();
        carriage_return = text.last().map_or(carriage_return, |byte| *byte == b'\r');
        let used = text.len() + usize::from(found.is_some());
        input.consume(used);
        passed += used;
        if found.is_some() {
            return Ok((passed, 1 + usize::from(carriage_return)));
        }
        if used == 0 {
            return Ok((passed, 0));
        }
    }
}

#[cfg(test)]
mod tests {
    use super::*;
    use std::io::BufReader;

    /// The lines' lengths, read with a buffer of so many bytes, and the bytes kept of the last one.
    fn lines(text: &[u8], buffer: usize) -> (Vec<usize>, Vec<u8>) {
        let mut input = BufReader::with_capacity(buffer, text);
        let (mut lengths, mut last) = (vec![], vec![]);
        while let Some(entry) = next_line(&mut input).unwrap() {
            lengths.push(entry.length);
            last = entry.bytes;
        }
        (lengths, last)
    }

    #[test]
    fn lines_lose_their_ends() {
        assert_eq!(lines(b"", 8), (vec![], vec![]));
        assert_eq!(lines(b"ab\n\ncd\r\n\r\ne\rf", 8), (vec![2, 0, 2, 0, 3], b"e\rf".to_vec()));
        assert_eq!(lines(b"ab\r", 8), (vec![3], b"ab\r".to_vec()));
    }

    #[test]
    fn long_lines_are_counted_and_not_kept() {
        for buffer in [1, 7, 4_096, 100_000] {
            for length in [4_095, 4_096, 4_097, 4_098, 4_099, 4_100, 50_000] {
                for end in ["\n", "\r\n", ""] {
                    let text = format!("{}{end}", "a".repeat(length));
                    let (lengths, last) = lines(text.as_bytes(), buffer);
                    assert_eq!((lengths, last.len()), (vec![length], length.min(MOST_KEPT)), "{length} {end:?}");
                    let (lengths, last) = lines(format!("{text}\nb").as_bytes(), buffer);
                    assert_eq!((lengths.len(), last), (if end.is_empty() { 2 } else { 3 }, b"b".to_vec()));
                }
            }
        }
    }
}
