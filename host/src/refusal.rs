//! Why a call was refused.

use crate::Fault;
use crate::numbers;
use std::fmt;

/// Why a call was refused. A refused call changed nothing.
#[derive(Clone, Debug, PartialEq, Eq)]
#[non_exhaustive]
pub enum Refusal {
    /// 1, long file: it has more than 65,535 bytes.
    LongFile,
    /// 2, stray flag: the flags are above 3.
    UnknownFlag,
    /// 3, not text: the file is not UTF-8.
    InvalidUtf8,
    /// 4, area full: what area 1 to 6 has of a file passes its limit. The areas hold 64 states, 2,048 rules, and 65,535 each
    /// of list entries, rewritten bytes, expected names and fault spans.
    AreaFull(u16),
    /// 5, faulty file: its faults, in the order in which they were found.
    FaultyFile(Vec<Fault>),
    /// 6, broken sheet: it fails its check, or there is no such rule.
    BrokenSheet,
    /// 7, broken map: more than 2,048 entries, equal names, a name past the names, or a length that is no multiple of 6.
    BrokenMap,
    /// 8, poor start: the entry has more than 4,096 bytes, or at a kiosk more than 512.
    StartRefused,
    /// 9, broken run: its kind of caller is unknown, or its numbers, its stack and the sheet do not fit each other. A run that a
    /// start and steps left always fits.
    BrokenRun,
    /// 10, ill-fitting row: not one length for each rule, or a length of any rule that is above the bytes that are left or ends
    /// inside a character.
    RowMismatch,
    /// 11, no such place: the offset is above the text's length or inside a character, or no offset has the line and column.
    NoSuchPlace,
    /// 12, ill-fitting text: the entry is not UTF-8, or in a run that was made by hand not n bytes long.
    TextMismatch,
    /// 13, unknown caller: neither a seller nor a kiosk. No [`Caller`](crate::Caller) is refused by it.
    UnknownCaller,
    /// A number of a library that is newer than this crate.
    Other(u16),
}

impl Refusal {
    /// The number by which the call was refused.
    pub fn number(&self) -> u16 {
        match self {
            Refusal::LongFile => numbers::LONG_FILE,
            Refusal::UnknownFlag => numbers::UNKNOWN_FLAG,
            Refusal::InvalidUtf8 => numbers::INVALID_UTF8,
            Refusal::AreaFull(_) => numbers::AREA_FULL,
            Refusal::FaultyFile(_) => numbers::FAULTY_FILE,
            Refusal::BrokenSheet => numbers::BROKEN_SHEET,
            Refusal::BrokenMap => numbers::BROKEN_MAP,
            Refusal::StartRefused => numbers::START_REFUSED,
            Refusal::BrokenRun => numbers::BROKEN_RUN,
            Refusal::RowMismatch => numbers::ROW_MISMATCH,
            Refusal::NoSuchPlace => numbers::NO_SUCH_PLACE,
            Refusal::TextMismatch => numbers::TEXT_MISMATCH,
            Refusal::UnknownCaller => numbers::UNKNOWN_CALLER,
            Refusal::Other(number) => *number,
        }
    }

    /// The specification's words for the number.
    pub fn words(&self) -> &'static str {
        match self {
            Refusal::LongFile => "long file",
            Refusal::UnknownFlag => "stray flag",
            Refusal::InvalidUtf8 => "not text",
            Refusal::AreaFull(_) => "area full",
            Refusal::FaultyFile(_) => "faulty file",
            Refusal::BrokenSheet => "broken sheet",
            Refusal::BrokenMap => "broken map",
            Refusal::StartRefused => "poor start",
            Refusal::BrokenRun => "broken run",
            Refusal::RowMismatch => "ill-fitting row",
            Refusal::NoSuchPlace => "no such place",
            Refusal::TextMismatch => "ill-fitting text",
            Refusal::UnknownCaller => "unknown caller",
            Refusal::Other(_) => "refused",
        }
    }

    /// A refusal that is told by its number alone.
    pub(crate) fn of(number: u16) -> Refusal {
        match number {
            numbers::LONG_FILE => Refusal::LongFile,
            numbers::UNKNOWN_FLAG => Refusal::UnknownFlag,
            numbers::INVALID_UTF8 => Refusal::InvalidUtf8,
            numbers::BROKEN_SHEET => Refusal::BrokenSheet,
            numbers::BROKEN_MAP => Refusal::BrokenMap,
            numbers::START_REFUSED => Refusal::StartRefused,
            numbers::BROKEN_RUN => Refusal::BrokenRun,
            numbers::ROW_MISMATCH => Refusal::RowMismatch,
            numbers::NO_SUCH_PLACE => Refusal::NoSuchPlace,
            numbers::TEXT_MISMATCH => Refusal::TextMismatch,
            numbers::UNKNOWN_CALLER => Refusal::UnknownCaller,
            other => Refusal::Other(other),
        }
    }

    fn reason(&self) -> String {
        match self {
            Refusal::LongFile => "it has more than 65,535 bytes".to_string(),
            Refusal::UnknownFlag => "the flags are above 3".to_string(),
            Refusal::InvalidUtf8 => "it is not UTF-8".to_string(),
            Refusal::AreaFull(area) => format!("there are more {} than the limit", of_area(*area)),
            Refusal::FaultyFile(faults) => of_faults(faults),
            Refusal::BrokenSheet => "it fails its check, or has no such rule".to_string(),
            Refusal::BrokenMap => {
                "it has equal names, more than 2,048 entries, or bytes that are no entries".to_string()
            }
            Refusal::StartRefused => "the entry has more than 4,096 bytes, or at a kiosk more than 512".to_string(),
            Refusal::BrokenRun => {
                "its kind of caller is unknown, or its numbers, its stack and the sheet do not fit each other"
                    .to_string()
            }
            Refusal::RowMismatch => {
                "not one length for each rule, or one that is above the bytes left or ends inside a character"
                    .to_string()
            }
            Refusal::NoSuchPlace => {
                "the offset is past the end or inside a character, or no offset has the line and column".to_string()
            }
            Refusal::TextMismatch => "the entry is not UTF-8, or not n bytes long".to_string(),
            Refusal::UnknownCaller => "neither a seller nor a kiosk".to_string(),
            Refusal::Other(number) => format!("by the number {number}, which this program does not know"),
        }
    }
}

/// What an area has, with its limit.
fn of_area(area: u16) -> &'static str {
    match area {
        1 => "states (64)",
        2 => "rules (2,048)",
        3 => "states in lists of rules (65,535)",
        4 => "bytes of rewritten patterns (65,535)",
        5 => "expected names (65,535)",
        6 => "spans of faults (65,535)",
        _ => "records",
    }
}

fn of_faults(faults: &[Fault]) -> String {
    match faults {
        [] => "it has faults".to_string(),
        [fault] => fault.to_string(),
        [first, rest @ ..] => format!("{first}, and {} more", rest.len()),
    }
}

/// `words (number): reason`.
impl fmt::Display for Refusal {
    fn fmt(&self, f: &mut fmt::Formatter) -> fmt::Result {
        write!(f, "{} ({}): {}", self.words(), self.number(), self.reason())
    }
}

impl std::error::Error for Refusal {}
