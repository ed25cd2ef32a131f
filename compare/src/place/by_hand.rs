//! Calls at every edge of 02's words, with the answers that they give.

use super::{Call, Subject};
use crate::answers::{ACCEPTED, INVALID_UTF8, LONG_FILE, NO_SUCH_PLACE, word};

const BEFORE: [u32; 2] = [0xa5a5_a5a5, 0x5a5a_5a5a];

/// How many were tried.
pub fn check() -> Result<usize, String> {
    for (source, offset, line, column) in PLACES {
        let subject = Subject::new(source.as_bytes(), *offset);
        expect(&subject, Call::LineColumn(*offset), (ACCEPTED, [*line, *column]))?;
        let back = Call::OffsetAt(u64::from(*line), u64::from(*column));
        expect(&subject, back, (word(ACCEPTED, &[*offset as usize]), BEFORE))?;
    }
    for (source, call) in REFUSED {
        expect(&Subject::new(source.as_bytes(), 1), *call, (NO_SUCH_PLACE, BEFORE))?;
    }
    for source in DAMAGED {
        let subject = Subject::new(source, 2);
        for call in CALLS_OF_DAMAGED {
            expect(&subject, *call, (INVALID_UTF8, BEFORE))?;
        }
    }
    let limits = limits()?;
    Ok(2 * PLACES.len() + REFUSED.len() + DAMAGED.len() * CALLS_OF_DAMAGED.len() + limits)
}

fn expect(subject: &Subject, call: Call, right: (u64, [u32; 2])) -> Result<(), String> {
    let left = subject.agreed(call, BEFORE)?;
    if left == right {
        Ok(())
    } else {
        Err(subject.told(&format!("{call:?}: the model has {left:x?}, and 02 {right:x?}")))
    }
}

/// Source, offset, line and column, there and back.
const PLACES: &[(&str, u64, u32, u32)] = &[
    ("", 0, 1, 1),
    ("a", 0, 1, 1),
    ("a", 1, 1, 2),
    ("\n", 0, 1, 1),
    ("\n", 1, 2, 1),
    ("a\n", 1, 1, 2),
    ("a\n", 2, 2, 1),
    ("a\nb", 2, 2, 1),
    ("a\nb", 3, 2, 2),
    ("\n\n\n", 2, 3, 1),
    ("\n\n\n", 3, 4, 1),
    ("é", 2, 1, 2),
    ("€", 3, 1, 2),
    ("😀", 4, 1, 2),
    ("aé€😀b", 1, 1, 2),
    ("aé€😀b", 3, 1, 3),
    ("aé€😀b", 6, 1, 4),
    ("aé€😀b", 10, 1, 5),
    ("aé€😀b", 11, 1, 6),
    ("é\né", 2, 1, 2),
    ("é\né", 3, 2, 1),
    ("é\né", 5, 2, 2),
    // nothing but U+000A ends a line
    ("\r\n", 0, 1, 1),
    ("\r\n", 1, 1, 2),
    ("\r\n", 2, 2, 1),
    ("\ra", 1, 1, 2),
    ("\n\ra", 2, 2, 2),
    ("\u{b}a", 1, 1, 2),
    ("\u{c}a", 1, 1, 2),
    ("\u{85}a", 2, 1, 2),
    ("\u{2028}a", 3, 1, 2),
    ("\u{2029}a", 3, 1, 2),
    // every code point is a character
    ("\0a", 1, 1, 2),
    ("\ta", 1, 1, 2),
    ("e\u{301}a", 1, 1, 2),
    ("e\u{301}a", 3, 1, 3),
    ("\u{feff}a", 3, 1, 2),
    ("\u{10ffff}a", 4, 1, 2),
];

const REFUSED: &[(&str, Call)] = &[
    ("", Call::LineColumn(1)),
    ("", Call::LineColumn(u64::MAX)),
    ("a", Call::LineColumn(2)),
    ("a\n", Call::LineColumn(3)),
    ("ab", Call::LineColumn(1 << 16)),
    ("ab", Call::LineColumn((1 << 32) + 1)),
    ("é", Call::LineColumn(1)),
    ("€", Call::LineColumn(1)),
    ("€", Call::LineColumn(2)),
    ("😀", Call::LineColumn(1)),
    ("😀", Call::LineColumn(2)),
    ("😀", Call::LineColumn(3)),
    ("", Call::OffsetAt(0, 0)),
    ("", Call::OffsetAt(0, 1)),
    ("", Call::OffsetAt(1, 0)),
    ("", Call::OffsetAt(1, 2)),
    ("", Call::OffsetAt(2, 1)),
    ("a", Call::OffsetAt(1, 3)),
    ("a\n", Call::OffsetAt(2, 0)),
    ("a\n", Call::OffsetAt(2, 2)),
    ("a\n", Call::OffsetAt(3, 1)),
    // the offset behind a line feed is the next line's
    ("a\nb", Call::OffsetAt(1, 3)),
    ("\n\n", Call::OffsetAt(1, 2)),
    ("é\n", Call::OffsetAt(1, 3)),
    ("\r\n", Call::OffsetAt(1, 3)),
    ("\ra", Call::OffsetAt(2, 1)),
    ("ab", Call::OffsetAt(1 + (1 << 16), 1)),
    ("ab", Call::OffsetAt(1, 1 + (1 << 16))),
    ("ab", Call::OffsetAt(1 + (1 << 32), 1)),
    ("ab", Call::OffsetAt(1, 1 + (1 << 32))),
    ("ab", Call::OffsetAt(u64::MAX, u64::MAX)),
];

/// A lone continuation byte, cut characters, overlong ones, surrogates, characters above U+10FFFF and bytes of none.
pub const DAMAGED: &[&[u8]] = &[
    b"\x80",
    b"a\xbf",
    b"\xc3\xa9\x80",
    b"\xc3",
    b"a\xe2\x82",
    b"a\xf0\x9f\x98",
    b"\xc3a",
    b"\xe2\x82a",
    b"\xf0\x9f\x98\n",
    b"\xc0\x80",
    b"\xc1\xbf",
    b"\xe0\x9f\xbf",
    b"\xf0\x8f\xbf\xbf",
    b"\xed\xa0\x80",
    b"\xed\xbf\xbf",
    b"\xf4\x90\x80\x80",
    b"\xf5\x80\x80\x80",
    b"\xf8",
    b"\xff",
];

/// 3 comes before 11.
const CALLS_OF_DAMAGED: &[Call] = &[
    Call::LineColumn(0),
    Call::LineColumn(1),
    Call::LineColumn(100),
    Call::LineColumn(u64::MAX),
    Call::OffsetAt(1, 1),
    Call::OffsetAt(0, 0),
    Call::OffsetAt(1, 100),
];

/// 65,535 bytes are accepted, and 1 comes before 3 and 11.
fn limits() -> Result<usize, String> {
    let full = "\n".repeat(65_535);
    let row = "a".repeat(65_535);
    let mut tried = 0;
    let mut expect = |source: &[u8], call: Call, right: (u64, [u32; 2])| {
        tried += 1;
        expect(&Subject::new(source, 3), call, right)
    };
    expect(full.as_bytes(), Call::LineColumn(65_535), (ACCEPTED, [65_536, 1]))?;
    expect(full.as_bytes(), Call::LineColumn(65_536), (NO_SUCH_PLACE, BEFORE))?;
    expect(full.as_bytes(), Call::OffsetAt(65_536, 1), (word(ACCEPTED, &[65_535]), BEFORE))?;
    expect(full.as_bytes(), Call::OffsetAt(65_537, 1), (NO_SUCH_PLACE, BEFORE))?;
    expect(row.as_bytes(), Call::LineColumn(65_535), (ACCEPTED, [1, 65_536]))?;
    expect(row.as_bytes(), Call::OffsetAt(1, 65_536), (word(ACCEPTED, &[65_535]), BEFORE))?;
    expect(row.as_bytes(), Call::OffsetAt(1, 65_537), (NO_SUCH_PLACE, BEFORE))?;
    for source in [row.clone() + "a", row.clone() + "é", full + "\n", "a".repeat(131_072)] {
        for call in [Call::LineColumn(0), Call::LineColumn(u64::MAX), Call::OffsetAt(1, 1), Call::OffsetAt(0, 0)] {
            expect(source.as_bytes(), call, (LONG_FILE, BEFORE))?;
        }
    }
    let damaged = [row.as_bytes(), b"\xff"].concat();
    expect(&damaged, Call::LineColumn(0), (LONG_FILE, BEFORE))?;
    expect(&damaged, Call::OffsetAt(0, 0), (LONG_FILE, BEFORE))?;
    expect(&damaged[1..], Call::LineColumn(0), (INVALID_UTF8, BEFORE))?;
    expect(&damaged[1..], Call::LineColumn(65_536), (INVALID_UTF8, BEFORE))?;
    expect(&damaged[1..], Call::OffsetAt(0, 0), (INVALID_UTF8, BEFORE))?;
    Ok(tried)
}
