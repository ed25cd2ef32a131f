//! Sources, and the calls that are made on them, each a function of seed and index alone.

use super::model::Place;
use super::{Call, by_hand};
use crate::case::SOURCE_LIMIT;
use crate::generators::{EDGE_BYTES, damage, letters_of_index};
use crate::random::Random;

/// Every offset and every pair of a source up to this length is asked for, and a sample of a longer one.
const SHORT: usize = 300;
const MEDIUM: usize = 9_000;
const SAMPLE: usize = 12;

/// Characters of 1 to 4 bytes, all that someone might take for a line's end, and two that are not seen.
const LETTERS: [&str; 13] =
    ["a", "\n", "é", "\r", "€", "😀", "\u{2028}", "\u{2029}", "\u{85}", "\u{b}", "\u{c}", "\u{301}", "\u{feff}"];

type Maker = fn(&mut Random, u64) -> Vec<u8>;

/// Of 1,000 cases. A long one costs as much as a hundred others.
const SHARES: [(Maker, u64); 6] = [
    (
        |_, index| letters_of_index(index, LETTERS.len()).iter().flat_map(|letter| LETTERS[*letter].bytes()).collect(),
        450,
    ),
    (|_, index| letters_of_index(index, EDGE_BYTES.len()).iter().map(|letter| EDGE_BYTES[*letter]).collect(), 150),
    (|random, _| short(random).into_bytes(), 290),
    (|random, _| damaged(random), 100),
    (|random, _| medium(random).into_bytes(), 8),
    (long, 2),
];

pub fn source(seed: u64, index: u64) -> Vec<u8> {
    let mut random = Random::new(seed ^ 0x706c_6163, index);
    let (round, mut within) = (index / 1_000, index % 1_000);
    // spread over the round: 617 and 1,000 have no common factor
    within = within * 617 % 1_000;
    for (make, share) in SHARES {
        if within < share {
            return make(&mut random, round * share + within);
        }
        within -= share;
    }
    unreachable!("the shares add up to 1,000")
}

fn short(random: &mut Random) -> String {
    let most = random.pick(&[20, 70, SHORT]);
    let bytes = random.below(most + 1);
    lines(random, bytes)
}

/// One of the sequences that are tried by hand stands somewhere, or the bytes are damaged at random.
fn damaged(random: &mut Random) -> Vec<u8> {
    let text = short(random);
    if random.percent(40) {
        let (before, behind) = text.split_at(text.floor_char_boundary(random.below(text.len() + 1)));
        return [before.as_bytes(), random.pick(by_hand::DAMAGED), behind.as_bytes()].concat();
    }
    let mut source = text.into_bytes();
    for _ in 0..1 + random.below(2) {
        damage(random, &mut source);
    }
    source
}

fn medium(random: &mut Random) -> String {
    let bytes = SHORT + random.below(MEDIUM - SHORT);
    lines(random, bytes)
}

/// So many bytes, in lines of few or many characters, most of them of one byte or few.
fn lines(random: &mut Random, bytes: usize) -> String {
    let longest = random.pick(&[0, 1, 4, 40, 130, 300, 70_000]);
    let others = random.pick(&[0, 2, 20, 100]);
    let letters = match random.below(3) {
        // without the line feed, whose share is that of the lines
        0 => vec![random.pick(&LETTERS[2..])],
        1 => vec!["é", "€", "😀"],
        _ => LETTERS[2..].to_vec(),
    };
    let end = random.pick(&["\n", "\n", "\r\n"]);
    let mut text = String::new();
    while text.len() < bytes {
        for _ in 0..random.below(longest + 1) {
            text.push_str(if random.percent(others) { random.pick(&letters) } else { "a" });
            if text.len() >= bytes {
                break;
            }
        }
        text.push_str(end);
    }
    cut(text, bytes)
}

/// Cut behind a character, and filled up to so many bytes.
fn cut(mut text: String, bytes: usize) -> String {
    text.truncate(text.floor_char_boundary(bytes));
    text.push_str(&"b".repeat(bytes - text.len()));
    text
}

/// At and above the limit of 65,535 bytes, with as many lines or columns as there can be, and damaged.
fn long(random: &mut Random, index: u64) -> Vec<u8> {
    let full = |letter: &str| cut(letter.repeat(SOURCE_LIMIT / letter.len() + 1), SOURCE_LIMIT);
    let text = match index % 12 {
        0 => full("\n"),
        1 => full("a"),
        2 => full(random.pick(&["é", "€", "😀", "\r\n", "é\n"])),
        3 | 4 => lines(random, SOURCE_LIMIT),
        5 => lines(random, SOURCE_LIMIT - 1),
        6 | 7 => lines(random, SOURCE_LIMIT + 1),
        8 => {
            let beyond = random.below(400);
            lines(random, 2 * (SOURCE_LIMIT + 1) + beyond)
        }
        9 => full(random.pick(&["a", "é", "\n"])),
        10 => lines(random, SOURCE_LIMIT),
        _ => lines(random, SOURCE_LIMIT + 1),
    };
    let mut source = text.into_bytes();
    if index % 12 > 8 {
        let at = random.pick(&[0, 1, source.len() / 2, source.len() - 2, source.len() - 1]);
        source[at] = random.pick(&[0x80, 0xc3, 0xe2, 0xf0, 0xff]);
    }
    source
}

/// The source's places are those of the model.
pub fn calls(source: &[u8], places: &[Place], seed: u64, index: u64) -> Vec<Call> {
    let mut random = Random::new(seed ^ 0x6361_6c6c, index);
    let length = source.len() as u64;
    let chosen = if source.len() <= SHORT { places.to_vec() } else { sample(&mut random, places) };
    let mut calls = vec![];
    match source.len() {
        ..=SHORT => calls.extend((0..length + 3).map(Call::LineColumn)),
        _ => calls.extend([0, 1, 2, 3, length - 1, length, length + 1, length + 2].map(Call::LineColumn)),
    }
    for place in &chosen {
        calls.extend(around(place));
        if source.len() > SHORT {
            calls.extend((place.offset.saturating_sub(1)..place.offset + 3).map(Call::LineColumn));
        }
    }
    let mut lines: Vec<u64> = chosen.iter().map(|place| place.line).collect();
    lines.dedup();
    for end in lines.into_iter().filter_map(|line| end_of_line(places, line)) {
        calls.push(Call::OffsetAt(end.line, 0));
        calls.extend([1, 2, 3].map(|behind| Call::OffsetAt(end.line, end.column + behind)));
    }
    let last = places.last().map_or(1, |place| place.line);
    let longest = chosen.iter().map(|place| place.column).max().unwrap_or(1);
    let first_pairs = [
        (0, 0),
        (0, 1),
        (0, longest),
        (1, 0),
        (1, 1),
        (1, 2),
        (2, 1),
        (2, 2),
        (last + 1, 1),
        (last + 1, 0),
        (last + 2, 1),
    ];
    calls.extend(first_pairs.map(|(line, column)| Call::OffsetAt(line, column)));
    calls.extend(far(&mut random, length, &chosen));
    calls
}

/// The first and the last places, some others, and those at the ends of their lines.
fn sample(random: &mut Random, places: &[Place]) -> Vec<Place> {
    let mut sample: Vec<Place> = places.iter().take(1).chain(places.iter().rev().take(2)).copied().collect();
    for _ in 0..if places.is_empty() { 0 } else { SAMPLE } {
        let place = places[random.below(places.len())];
        let end = if random.percent(30) { end_of_line(places, place.line) } else { None };
        sample.push(end.unwrap_or(place));
    }
    sample
}

fn end_of_line(places: &[Place], line: u64) -> Option<Place> {
    let behind = places.partition_point(|place| place.line <= line);
    behind.checked_sub(1).map(|at| places[at])
}

/// There and back, and pairs next to it.
fn around(place: &Place) -> impl Iterator<Item = Call> {
    let Place { offset, line, column } = *place;
    let pairs = [
        (line, column),
        (line - 1, column),
        (line + 1, column),
        (line, column - 1),
        (line, column + 1),
        (column, line),
    ];
    [Call::LineColumn(offset)].into_iter().chain(pairs.map(|(line, column)| Call::OffsetAt(line, column)))
}

/// Numbers that would be others in 8, 16 or 32 bits, and the greatest.
fn far(random: &mut Random, length: u64, places: &[Place]) -> Vec<Call> {
    let mut calls = vec![];
    let mut offsets = vec![0, length];
    let mut pairs = vec![(1, 1)];
    for _ in 0..if places.is_empty() { 0 } else { 3 } {
        let place = places[random.below(places.len())];
        offsets.push(place.offset);
        pairs.push((place.line, place.column));
    }
    for more in [1 << 8, 1 << 16, 1 << 17, 1 << 31, 1 << 32, 1 << 48, 1 << 63, u64::MAX - (1 << 16) + 1] {
        calls.extend(offsets.iter().map(|offset| Call::LineColumn(offset + more)));
        for (line, column) in &pairs {
            calls.extend(
                [(line + more, *column), (*line, column + more)].map(|(line, column)| Call::OffsetAt(line, column)),
            );
        }
        calls.push(Call::OffsetAt(more, more));
    }
    calls.push(Call::LineColumn(u64::MAX));
    calls.extend(
        [(u64::MAX, 1), (1, u64::MAX), (u64::MAX, u64::MAX)].map(|(line, column)| Call::OffsetAt(line, column)),
    );
    calls
}

#[cfg(test)]
mod tests {
    use super::*;
    use crate::place::model::Model;
    use std::collections::HashSet;

    #[test]
    fn a_source_is_a_function_of_its_number() {
        for index in 0..2_000 {
            assert_eq!(source(3, index), source(3, index));
        }
    }

    #[test]
    fn short_sources_are_asked_for_every_offset() {
        for index in 0..1_000 {
            let source = source(1, index);
            let model = Model::new(&source, None);
            let calls: HashSet<Call> = calls(&source, model.places(), 1, index).into_iter().collect();
            if source.len() <= SHORT {
                assert!((0..source.len() as u64 + 3).all(|offset| calls.contains(&Call::LineColumn(offset))));
                let pairs = model.places().iter().map(|place| Call::OffsetAt(place.line, place.column));
                assert!(pairs.into_iter().all(|call| calls.contains(&call)));
            }
        }
    }

    #[test]
    fn lines_have_the_length_that_was_asked_for() {
        let mut random = Random::new(1, 1);
        for bytes in (0..200).chain([SOURCE_LIMIT, SOURCE_LIMIT + 1]) {
            assert_eq!(lines(&mut random, bytes).len(), bytes);
        }
    }

    #[test]
    fn long_sources_are_at_the_limit_and_above() {
        let sources: Vec<Vec<u8>> = (0..12).map(|index| long(&mut Random::new(1, index), index)).collect();
        let count = |is: fn(&Vec<u8>) -> bool| sources.iter().filter(|source| is(source)).count();
        assert_eq!(count(|source| source.len() == SOURCE_LIMIT), 7);
        assert_eq!(count(|source| source.len() == SOURCE_LIMIT + 1), 3);
        assert_eq!(count(|source| std::str::from_utf8(source).is_err()), 3);
    }
}
