//! The numbers of the calls' answers, and an answer as one word of 64 bits: four fields of 16 bits, the number and up to
//! three values.

pub const ACCEPTED: u64 = 0;
pub const LONG_FILE: u64 = 1;
pub const UNKNOWN_FLAG: u64 = 2;
pub const INVALID_UTF8: u64 = 3;
pub const AREA_FULL: u64 = 4;
pub const FAULTY_FILE: u64 = 5;
pub const BROKEN_SHEET: u64 = 6;
pub const BROKEN_MAP: u64 = 7;
pub const START_REFUSED: u64 = 8;
pub const BROKEN_RUN: u64 = 9;
pub const ROW_MISMATCH: u64 = 10;
pub const NO_SUCH_PLACE: u64 = 11;
pub const TEXT_MISMATCH: u64 = 12;
pub const UNKNOWN_CALLER: u64 = 13;

pub const DONE: u64 = 256;
pub const STOPPED: u64 = 257;
pub const UNLINKED: u64 = 258;
pub const SKIP: u64 = 259;
pub const TOKEN: u64 = 260;

const FIELD: u64 = 65_536;

/// The word of a number and its values, the first value next to the number.
pub fn word(number: u64, values: &[usize]) -> u64 {
    values.iter().rev().fold(0, |upper, value| (upper + *value as u64) * FIELD) + number
}

/// The number and the three values of a word.
pub fn fields(word: u64) -> [u16; 4] {
    [0, 16, 32, 48].map(|bits| (word >> bits) as u16)
}

pub fn number(word: u64) -> u64 {
    word % FIELD
}

#[cfg(test)]
mod tests {
    use super::*;

    #[test]
    fn a_word_has_its_number_lowest() {
        assert_eq!(word(AREA_FULL, &[6]), 0x0000_0000_0006_0004);
        assert_eq!(word(TOKEN, &[1, 2, 3]), 0x0003_0002_0001_0104);
        assert_eq!(word(ACCEPTED, &[0, 65_535]), 0x0000_ffff_0000_0000);
        assert_eq!(word(BROKEN_SHEET, &[]), 6);
    }

    #[test]
    fn the_fields_of_a_word_are_read_back() {
        let values = [65_535, 0, 4_096];
        assert_eq!(fields(word(TOKEN, &values)), [260, 65_535, 0, 4_096]);
        assert_eq!(number(word(TOKEN, &values)), TOKEN);
    }
}
