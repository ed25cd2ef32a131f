//! Maps of long names that overlap, made so that names are told apart late. Their bytes can be few, since a name is a range.

use crate::broken_sheets::records;
use crate::case::SOURCE_LIMIT;
use crate::link::Call;
use crate::sheet::Sheet;
use std::ops::Range;

pub const NAMES: usize = 2_048;
const LENGTH: usize = 63_000;

/// Bytes, and the ranges of them that are names.
pub struct Hostile {
    pub bytes: Vec<u8>,
    ranges: Vec<Range<usize>>,
}

/// Zeros of differing lengths.
pub fn zeros() -> Hostile {
    Hostile { bytes: vec![0; SOURCE_LIMIT], ranges: (0..NAMES).map(|j| 0..LENGTH - j).collect() }
}

/// Zeros of one length with one byte 1 near the middle, at another place in each.
pub fn middle() -> Hostile {
    let mut bytes = vec![0; SOURCE_LIMIT];
    bytes[(LENGTH + NAMES) / 2] = 1;
    Hostile { bytes, ranges: (0..NAMES).map(|j| j..j + LENGTH).collect() }
}

/// Names of one length that begin with 32,779 zeros or more and that our index sends to one home. The byte 0x80 is the highest of
/// a word of four bytes in each: it adds half of 2^32 to the sum, and to the sum of sums once for each word from there on, and
/// whether these are even or odd is the same in all names.
pub fn one_home() -> Hostile {
    const PLACE: usize = 49_155;
    let mut bytes = vec![0; SOURCE_LIMIT];
    bytes[PLACE] = 0x80;
    Hostile { bytes, ranges: (0..NAMES).map(|j| 8 * j..8 * j + PLACE + 4).collect() }
}

impl Hostile {
    pub fn names(&self) -> impl Iterator<Item = &[u8]> {
        self.names_in(&self.bytes)
    }

    /// The same names of a copy of the bytes: equal, and not in the same place.
    pub fn names_in<'a>(&self, bytes: &'a [u8]) -> impl Iterator<Item = &'a [u8]> {
        self.ranges.iter().map(|range| &bytes[range.clone()])
    }

    /// The call that links a sheet by these names; each has its number for an id.
    pub fn call(&self, sheet: Sheet) -> Call {
        let fields = self.ranges.iter().zip(0..).flat_map(|(range, id)| [range.start as u16, range.len() as u16, id]);
        let entries = records(&fields.collect::<Vec<u16>>());
        let area_7 = vec![0; 2 * sheet.counts[1] as usize];
        Call { sheet, names: self.bytes.clone(), entries, area_7, area_8: vec![0; 2 * NAMES] }
    }

    /// A sheet with one state, whose source has the same bytes and whose rules have the same names.
    pub fn sheet(&self) -> Sheet {
        let rule = |name: &Range<usize>| [0, 0, 1, 0, 0, name.start as u16, name.len() as u16, 0, 0, 0, 0, 0, 0, 0];
        let rules: Vec<u16> = self.ranges.iter().flat_map(rule).collect();
        Sheet {
            source: self.bytes.clone(),
            areas: [records(&[0, 0, 0]), records(&rules), vec![], vec![], vec![]],
            counts: [1, NAMES as u16, 0, 0, 0, 0],
        }
    }
}

#[cfg(test)]
mod tests {
    use super::*;
    use crate::sheet::{Rule, fields};
    use std::collections::HashSet;
    use std::ops::RangeInclusive;

    fn check(hostile: &Hostile, lengths: RangeInclusive<usize>) {
        let names: HashSet<&[u8]> = hostile.names().collect();
        assert_eq!(names.len(), 2_048);
        assert!(names.iter().all(|name| lengths.contains(&name.len())));
        // every name has the byte in the middle of all of them
        assert!(hostile.ranges.iter().all(|range| range.contains(&32_524)));
        let sheet = hostile.sheet();
        assert!(sheet.passes());
        assert!(sheet.rules().iter().all(Rule::is_named));
        let of_rules: HashSet<&[u8]> = sheet.rules().iter().map(|rule| &sheet.source[rule.name()]).collect();
        assert_eq!(of_rules, names);
        let call = hostile.call(sheet.clone());
        let of_entry = |j: usize| {
            let [from, length, id]: [u16; 3] = fields(&call.entries, j);
            assert_eq!(id as usize, j);
            &call.names[from as usize..from as usize + length as usize]
        };
        assert_eq!(call.entries.len(), 6 * NAMES);
        assert_eq!((0..NAMES).map(of_entry).collect::<HashSet<_>>(), names);
    }

    #[test]
    fn zeros_differ_in_length_alone() {
        check(&zeros(), 60_900..=LENGTH);
        assert!(zeros().names().all(|name| name.iter().all(|byte| *byte == 0)));
    }

    #[test]
    fn names_of_one_length_differ_in_the_middle_alone() {
        check(&middle(), LENGTH..=LENGTH);
        for name in middle().names() {
            let place = name.iter().position(|byte| *byte == 1);
            assert!(place.is_some_and(|place| (30_000..33_000).contains(&place)));
            assert_eq!((name.len(), name.iter().filter(|byte| **byte != 0).count()), (LENGTH, 1));
        }
    }

    #[test]
    fn names_of_one_home_begin_alike() {
        check(&one_home(), 49_159..=49_159);
        assert!(one_home().names().all(|name| name[..32_779].iter().all(|byte| *byte == 0)));
    }
}
