//! One parse call: what it takes and what it answers.

use crate::answers;

pub const AREAS: usize = 6;
pub const AREA_NAMES: [&str; AREAS] = ["states", "rules", "lists", "rewritten text", "expected names", "faults"];
/// Bytes of one record of each area.
pub const RECORD_SIZES: [usize; AREAS] = [6, 28, 2, 1, 4, 8];
/// The most records that each area may hold, whatever its length.
pub const RECORD_LIMITS: [usize; AREAS] = [64, 2_048, 65_535, 65_535, 65_535, 65_535];
pub const SOURCE_LIMIT: usize = 65_535;

pub const FLAG_COMMENTS: u64 = 1;
pub const FLAG_POSIX_ESCAPES: u64 = 2;

#[derive(Clone, Debug, PartialEq, Eq, Hash)]
pub struct Case {
    pub source: Vec<u8>,
    pub flags: u64,
    pub verdicts: Vec<u8>,
    /// The six areas' lengths in bytes.
    pub capacities: [usize; AREAS],
}

#[derive(Clone, Debug, PartialEq, Eq)]
pub struct Answer {
    pub word: u64,
    pub counts: [u16; AREAS],
    /// Each as long as the case's capacity.
    pub areas: [Vec<u8>; AREAS],
}

impl Answer {
    pub fn number(&self) -> u64 {
        answers::number(self.word)
    }

    /// The area at number 4, the count of fault spans at number 5.
    pub fn value(&self) -> u64 {
        answers::fields(self.word)[1].into()
    }
}
