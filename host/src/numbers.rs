//! The numbers of `include/troymantle.h`, by the same names; `tools/declarations` holds them to each other.

/// Accepted.
pub const ACCEPTED: u16 = 0;
/// The file has more than 65,535 bytes.
pub const LONG_FILE: u16 = 1;
/// The flags are above 3.
pub const UNKNOWN_FLAG: u16 = 2;
/// The file is not UTF-8.
pub const INVALID_UTF8: u16 = 3;
/// A record does not fit its area or passes the area's limit.
pub const AREA_FULL: u16 = 4;
/// The file has faults.
pub const FAULTY_FILE: u16 = 5;
/// The sheet fails its check, or has no such rule.
pub const BROKEN_SHEET: u16 = 6;
/// The map fails its check.
pub const BROKEN_MAP: u16 = 7;
/// The entry is too long for the caller's kind, or the stack too short.
pub const START_REFUSED: u16 = 8;
/// The run's kind of caller is unknown, or its numbers, its stack and the sheet do not fit each other.
pub const BROKEN_RUN: u16 = 9;
/// The row does not fit the rules, the bytes that are left or the edges of characters.
pub const ROW_MISMATCH: u16 = 10;
/// No offset is there, or has that line and column.
pub const NO_SUCH_PLACE: u16 = 11;
/// The entry's text is not UTF-8, or not n bytes long.
pub const TEXT_MISMATCH: u16 = 12;
/// There is no such kind of caller.
pub const UNKNOWN_CALLER: u16 = 13;

/// The position is at the entry's end.
pub const DONE: u16 = 256;
/// No live rule matches.
pub const STOPPED: u16 = 257;
/// The winner has a name and no id.
pub const UNLINKED: u16 = 258;
/// A move by a rule without a name.
pub const SKIP: u16 = 259;
/// A move by a named rule.
pub const TOKEN: u16 = 260;

/// `//` skips a line.
pub const FLAG_COMMENTS: u64 = 1;
/// `\b` becomes `\x08`.
pub const FLAG_POSIX_ESCAPES: u64 = 2;
/// Both flags, the greatest number that a parse takes.
pub const MOST_FLAGS: u64 = 3;

/// The kind of caller that starts a run: a seller.
pub const SELLER: u16 = 0;
/// A kiosk.
pub const KIOSK: u16 = 1;

/// Bytes of a state in area 1.
pub const STATE_WIDTH: usize = 6;
/// Bytes of a rule in area 2.
pub const RULE_WIDTH: usize = 28;
/// Bytes of a list entry in area 3.
pub const LIST_WIDTH: usize = 2;
/// Bytes of an expected name in area 5.
pub const EXPECTED_WIDTH: usize = 4;
/// Bytes of a fault span in area 6.
pub const FAULT_WIDTH: usize = 8;
/// Bytes of an entry of a map.
pub const MAP_WIDTH: usize = 6;
/// Bytes of a number in areas 7 and 8, of a length in a row and of a state id on a stack.
pub const NUMBER_WIDTH: usize = 2;

/// The most bytes of a file.
pub const MOST_SOURCE: usize = 65_535;
/// The most states.
pub const MOST_STATES: usize = 64;
/// The most rules.
pub const MOST_RULES: usize = 2_048;
/// The most list entries, rewritten bytes, expected names and fault spans, each.
pub const MOST_OTHERS: usize = 65_535;
/// The most entries of a map.
pub const MOST_MAP: usize = 2_048;
/// The most bytes of an entry that a seller's run goes over.
pub const MOST_ENTRY: usize = 4_096;
/// The most bytes of an entry that a kiosk's run goes over.
pub const MOST_KIOSK_ENTRY: usize = 512;

/// Bytes of area 1 that hold whatever the limits allow; so below for the other areas.
pub const AREA1_BYTES: usize = 384;
/// Bytes of area 2.
pub const AREA2_BYTES: usize = 57_344;
/// Bytes of area 3.
pub const AREA3_BYTES: usize = 131_070;
/// Bytes of area 4.
pub const AREA4_BYTES: usize = 65_535;
/// Bytes of area 5.
pub const AREA5_BYTES: usize = 262_140;
/// Bytes of area 6.
pub const AREA6_BYTES: usize = 524_280;
/// Bytes of area 7.
pub const AREA7_BYTES: usize = 4_096;
/// Bytes of area 8.
pub const AREA8_BYTES: usize = 4_096;
/// Bytes of a stack.
pub const STACK_BYTES: usize = 8_194;

/// What a winner does to the stack: nothing.
pub const NONE: u16 = 0;
/// The target alone is left on the stack.
pub const REPLACE: u16 = 1;
/// The target is put on the stack.
pub const PUSH: u16 = 2;
/// The top of the stack goes.
pub const POP: u16 = 3;

/// Kinds of faults: the file ends before `%%`.
pub const PREMATURE_END: u16 = 0;
/// Something stands behind a second `%%`.
pub const ROUTINES_NOT_SUPPORTED: u16 = 1;
/// A declaration that is not known.
pub const UNKNOWN_DECLARATION: u16 = 2;
/// A rule without a blank.
pub const MISSING_SPACE: u16 = 3;
/// A name without its quotes.
pub const INVALID_NAME: u16 = 4;
/// A state that is not declared.
pub const UNKNOWN_START_STATE: u16 = 5;
/// A state that is declared twice.
pub const DUPLICATE_START_STATE: u16 = 6;
/// A `<` without its `>`.
pub const INVALID_START_STATE: u16 = 7;
/// A state's name that has not the form of one.
pub const INVALID_START_STATE_NAME: u16 = 8;
/// Two rules with one name.
pub const DUPLICATE_NAME: u16 = 9;
/// A pattern that the regex engine refuses.
pub const REGEX_ERROR: u16 = 10;
/// A line among the rules that starts with whitespace.
pub const VERBATIM_NOT_SUPPORTED: u16 = 11;
