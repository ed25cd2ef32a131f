//! Deliberate misreadings of 02, 1/13. The cases must tell each of them from the right reading.

use crate::misreadings::misreadings;

misreadings! {
    // Numbers
    LongFileAtTheLimit: "65,535 bytes are refused as a long file",
    LongFileOneLater: "65,536 bytes are no long file",
    LengthOfSixteenBits: "only the low 16 bits of a length are looked at for 1",
    InvalidUtf8BeforeLongFile: "3 is tested before 1",
    NoSuchPlaceBeforeInvalidUtf8: "11 is tested before 3",
    NoSuchPlaceBeforeLongFile: "11 is tested before 1",
    PlaceWrittenAtARefusal: "a refusal clears the place",
    // Not UTF-8
    SurrogatesAreText: "encoded surrogates count as text",
    OverlongFormsAreText: "overlong encodings count as text",
    CharactersPastTheLastAreText: "encodings above U+10FFFF count as text",
    ImpossibleBytesAreText: "bytes from 248 up count as text",
    LoneContinuationIsText: "a continuation byte without a first byte counts as text",
    CutCharacterIsText: "a character cut off by another counts as text",
    CharacterCutByTheEndIsText: "a character cut off by the end of the source counts as text",
    TextIsJudgedUpToThePlace: "what is behind the place need not be UTF-8",
    // Lines
    LineFeedIsOfTheNextLine: "a line feed is the first character of the next line",
    LineFeedAtTheEndEndsNoLine: "a line feed at the end of the source ends no line",
    CarriageReturnEndsALine: "a carriage return ends a line too",
    CarriageReturnAndLineFeedAreOneEnd: "a carriage return ends a line, with a line feed behind it as one end",
    AnyLineEndEndsALine: "each of 01's five line ends ends a line",
    NextLineEndsALine: "U+0085 ends a line too",
    FormFeedEndsALine: "a form feed ends a line too",
    LinesFromZero: "lines count from 0",
    // Columns
    ColumnsFromZero: "columns count from 0",
    ColumnInBytes: "a column counts bytes",
    ColumnInSixteenBitUnits: "a column counts the units of UTF-16",
    CombiningMarksHaveNoColumn: "a combining mark counts with the character before it",
    ByteOrderMarkHasNoColumn: "a byte order mark at the start does not count",
    CarriageReturnAndLineFeedAreOneColumn: "a line feed behind a carriage return has the same column",
    // Offsets
    InsideACharacter: "an offset inside a character has the character's place",
    EndHasNoPlace: "the offset equal to the length is refused",
    EndHasNoPair: "no pair gives the offset equal to the length",
    LineFeedHasNoPlace: "the offset of a line feed is refused",
    LineFeedHasNoPair: "no pair gives the offset of a line feed",
    OffsetOfSixteenBits: "only the low 16 bits of an offset are looked at",
    OffsetOfThirtyTwoBits: "only the low 32 bits of an offset are looked at",
    // Pairs
    PairBehindALineIsTheNextLine: "a column one behind a line's end is the next line's start",
    PairBehindALineIsItsEnd: "a column behind a line's end is its last",
    PairBehindTheLastLineIsTheEnd: "a line behind the last is the end of the source",
    LineZeroIsTheFirst: "line 0 is line 1",
    ColumnZeroIsTheFirst: "column 0 is column 1",
    PairOfSixteenBits: "only the low 16 bits of a line and a column are looked at",
    PairOfThirtyTwoBits: "only the low 32 bits of a line and a column are looked at",
    PlaceOfSixteenBits: "a line or a column of 65,536 is told as 0",
}
