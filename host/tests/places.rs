//! Lines and columns: there and back.
#![allow(clippy::unwrap_used, clippy::expect_used)]

use troymantle::{FaultKind, LexFile, Place, Refusal};

/// Every offset of a text with its place, as this counts them: by characters, one after the other.
fn counted(text: &str) -> Vec<(usize, Place)> {
    let (mut line, mut column) = (1, 1);
    let mut places = vec![];
    for (offset, character) in text.char_indices() {
        places.push((offset, Place { line, column }));
        (line, column) = if character == '\n' { (line + 1, 1) } else { (line, column + 1) };
    }
    places.push((text.len(), Place { line, column }));
    places
}

/// All offsets of a text, there and back; all others are refused.
fn check(text: &str) {
    let expected = counted(text);
    for (offset, place) in &expected {
        assert_eq!(Place::of(text, *offset), Ok(*place), "{offset} of {text:?}");
        assert_eq!(place.offset(text), Ok(*offset), "{place} of {text:?}");
    }
    for offset in (0..text.len() + 5).filter(|offset| !text.is_char_boundary(*offset)) {
        assert_eq!(Place::of(text, offset), no_place(), "{offset} of {text:?}");
    }
    // the column behind the last one of each line, columns 0, and the line behind the last one
    let lasts = expected.chunk_by(|(_, one), (_, other)| one.line == other.line).filter_map(|line| line.last());
    let behind = lasts.map(|(_, last)| Place { column: last.column + 1, ..*last }).collect::<Vec<_>>();
    let zeros = behind.iter().map(|place| Place { column: 0, ..*place });
    for place in behind.iter().copied().chain(zeros).chain([Place { line: behind.len() as u32 + 1, column: 1 }]) {
        assert_eq!(place.offset(text), no_place(), "{place} of {text:?}");
    }
}

fn no_place<T>() -> Result<T, Refusal> {
    Err(Refusal::NoSuchPlace)
}

#[test]
fn there_and_back() {
    for text in
        ["", "\n", "\n\n", "a", "é", "€", "😀", "aé€😀", "aé€😀\n", "😀\n€\né\na", "a\r\nb\r\n", "a\r\nb", "\r\r\n\r"]
    {
        check(text);
    }
    // only U+000A ends a line
    check("a\u{b}b\u{c}c\rd\u{85}e\u{2028}f\u{2029}g\ni");
    assert_eq!(Place::of("a\u{2028}b\r\nc", 6), Ok(Place { line: 1, column: 5 }));
}

/// Texts of some length, in which characters and line ends stand at all places.
#[test]
fn there_and_back_in_longer_texts() {
    for shift in 0..5 {
        for piece in ["é", "€", "😀", "a\r\n", "\r\n", "\n", "€\n", "aé€😀\n", "a line of usual length ;\n", "x"]
        {
            check(&("a".repeat(shift) + &piece.repeat(800 / piece.len())));
        }
    }
}

#[test]
fn the_longest_texts() {
    let lines = "\n".repeat(65_535);
    assert_eq!(Place::of(&lines, 65_535), Ok(Place { line: 65_536, column: 1 }));
    assert_eq!(Place { line: 65_536, column: 1 }.offset(&lines), Ok(65_535));
    assert_eq!(Place { line: 65_536, column: 2 }.offset(&lines), no_place());
    let columns = "a".repeat(65_535);
    assert_eq!(Place::of(&columns, 65_535), Ok(Place { line: 1, column: 65_536 }));
    assert_eq!(Place { line: 1, column: 65_536 }.offset(&columns), Ok(65_535));
    assert_eq!(Place { line: 1, column: 65_537 }.offset(&columns), no_place());
}

#[test]
fn many_thousand_faults_have_their_places() {
    let file = "%%\n".to_string() + &" €\n".repeat(13_000);
    let Err(Refusal::FaultyFile(faults)) = LexFile::new(&file).parse() else { panic!("the file has faults") };
    assert_eq!(faults.len(), 13_000);
    for (fault, line) in faults.iter().zip(2..) {
        assert_eq!((fault.kind, fault.place), (FaultKind::VerbatimNotSupported, Place { line, column: 1 }));
    }
}

/// Random texts, some of them with a random byte in it, by which most are not UTF-8.
#[test]
fn there_and_back_in_random_bytes() {
    let mut state = 1_u64;
    let mut below = |most: usize| {
        state = state.wrapping_mul(6_364_136_223_846_793_005).wrapping_add(1);
        (state >> 33) as usize % most
    };
    let pieces = ["a", "\n", "\r\n", "é", "€", "😀"].map(str::as_bytes);
    let mut texts = 0;
    for _ in 0..300 {
        let mut bytes = vec![];
        (0..below(200)).for_each(|_| bytes.extend(pieces[below(pieces.len())]));
        if below(3) == 0 && !bytes.is_empty() {
            let at = below(bytes.len());
            bytes[at] = below(256) as u8;
        }
        let Ok(text) = str::from_utf8(&bytes) else {
            let first = Place { line: 1, column: 1 };
            assert_eq!(Place::of(&bytes, below(bytes.len())), Err(Refusal::InvalidUtf8));
            assert_eq!(first.offset(&bytes), Err(Refusal::InvalidUtf8));
            continue;
        };
        texts += 1;
        check(text);
    }
    assert!((200..280).contains(&texts), "{texts} texts were UTF-8");
}
