//! A sheet as the calls take it, and the sheet check by 01's words.

use crate::case::{AREAS, Answer, Case};
use crate::model::{self, Reading};
use crate::oracle;
use std::ops::Range;

#[derive(Clone, Debug, PartialEq, Eq)]
pub struct Sheet {
    pub source: Vec<u8>,
    /// Areas 1 to 5.
    pub areas: [Vec<u8>; 5],
    pub counts: [u16; 6],
}

pub struct Rule(pub [u16; 14]);

impl Rule {
    pub fn has_id(&self) -> u16 {
        self.0[0]
    }

    pub fn id(&self) -> u16 {
        self.0[1]
    }

    pub fn is_named(&self) -> bool {
        self.0[2] == 1
    }

    pub fn name(&self) -> Range<usize> {
        let from = self.0[5] as usize;
        from..from + self.0[6] as usize
    }

    pub fn list(&self) -> Range<usize> {
        let from = self.0[10] as usize;
        from..from + self.0[11] as usize
    }

    pub fn operation(&self) -> u16 {
        self.0[12]
    }

    pub fn target(&self) -> u16 {
        self.0[13]
    }
}

pub fn field(bytes: &[u8], at: usize) -> u16 {
    u16::from_le_bytes([bytes[at], bytes[at + 1]])
}

pub fn fields<const N: usize>(bytes: &[u8], number: usize) -> [u16; N] {
    std::array::from_fn(|j| field(bytes, number * 2 * N + 2 * j))
}

/// The sheet of a file with flags 0 and no verdicts, in areas with so many bytes behind the records.
pub fn parsed(source: &str, spare: usize) -> Sheet {
    let case = Case { source: source.into(), flags: 0, verdicts: vec![], capacities: [0; AREAS] };
    let case = Case { capacities: oracle::needs(&case).map(|need| need + spare), ..case };
    Sheet::new(case.source.clone(), model::answer(&case, Reading::RIGHT))
}

impl Sheet {
    /// What a parse of the source left.
    pub fn new(source: Vec<u8>, answer: Answer) -> Sheet {
        let [one, two, three, four, five, _] = answer.areas;
        Sheet { source, areas: [one, two, three, four, five], counts: answer.counts }
    }

    pub fn rules(&self) -> Vec<Rule> {
        (0..self.counts[1] as usize).map(|k| Rule(fields(&self.areas[1], k))).collect()
    }

    /// The sheet check.
    pub fn passes(&self) -> bool {
        const SIZES: [usize; 5] = [6, 28, 2, 1, 4];
        let count = |area: usize| self.counts[area - 1] as usize;
        let long = (0..5).all(|j| count(j + 1) * SIZES[j] <= self.areas[j].len());
        if !long || !(1..=64).contains(&count(1)) || count(2) > 2_048 {
            return false;
        }
        let n = self.source.len();
        let ordered = |start: u16, end: u16| start <= end && end as usize <= n;
        let inside = |from: u16, length: u16, bytes: usize| from as usize + length as usize <= bytes;
        let states = (0..count(1)).all(|k| {
            let [start, end, exclusive] = fields(&self.areas[0], k);
            ordered(start, end) && exclusive <= 1
        });
        let rules = self.rules().iter().all(|rule| {
            let [
                has_id,
                _,
                named,
                start,
                end,
                from,
                length,
                place,
                text_from,
                text_length,
                list_from,
                list_count,
                operation,
                target,
            ] = rule.0;
            let text = if place == 1 { count(4) } else { n };
            [has_id, named, place].iter().all(|mark| *mark <= 1)
                && ordered(start, end)
                && inside(from, length, n)
                && inside(text_from, text_length, text)
                && inside(list_from, list_count, count(3))
                && operation <= 3
                && (target as usize) < count(1)
        });
        let lists = (0..count(3)).all(|k| (field(&self.areas[2], 2 * k) as usize) < count(1));
        let expected = (0..count(5)).all(|k| {
            let [start, end] = fields(&self.areas[4], k);
            ordered(start, end)
        });
        states && rules && lists && expected
    }
}

#[cfg(test)]
mod tests {
    use super::*;

    #[test]
    fn fields_have_their_low_byte_first() {
        let bytes = [1, 2, 3, 4, 255, 255, 0, 1];
        assert_eq!(field(&bytes, 1), 0x0302);
        assert_eq!(fields(&bytes, 1), [65_535, 256]);
    }

    #[test]
    fn a_parsed_sheet_passes_and_its_rules_are_read() {
        let sheet = parsed("%x S\n%%\n<S>\\q <+S>'N'\nb ;", 3);
        assert!(sheet.passes());
        let rules = sheet.rules();
        assert_eq!(sheet.counts, [2, 2, 1, 0, 0, 0]);
        assert_eq!(&sheet.source[rules[0].name()], b"N");
        assert_eq!((rules[0].list(), rules[0].operation(), rules[0].target()), (0..1, 2, 1));
        assert_eq!((rules[1].is_named(), rules[1].list(), rules[1].operation()), (false, 1..1, 0));
    }

    #[test]
    fn a_sheet_with_a_state_that_is_not_declared_fails() {
        let mut sheet = parsed("%x S\n%%\n<S>a ;", 0);
        sheet.areas[2] = vec![2, 0];
        assert!(!sheet.passes());
        sheet.areas[2] = vec![1];
        assert!(!sheet.passes());
    }
}
