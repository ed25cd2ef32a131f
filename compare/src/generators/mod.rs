//! Cases, each a function of generator, seed and index alone, so that any case can be made again.

mod areas;
mod edges;
mod encodings;
mod exhaustive;
mod grammar;
mod limits;
mod room;

use crate::case::{AREAS, Case};
use crate::random::Random;

pub use encodings::{EDGE_BYTES, damage};
pub use room::roomy;

#[derive(Clone, Copy, Debug, PartialEq, Eq)]
pub enum Generator {
    Mix,
    Exhaustive,
    Edges,
    Grammar,
    Areas,
    Encodings,
    Limits,
}

pub const NAMES: [(&str, Generator, &str); 7] = [
    ("mix", Generator::Mix, "all of the following, in fixed shares"),
    ("exhaustive", Generator::Exhaustive, "every short string over several small alphabets of pieces, shortest first"),
    ("edges", Generator::Edges, "whitespace, quotes and characters of 1 to 4 bytes at every edge of whole files"),
    ("grammar", Generator::Grammar, "random files of valid and damaged pieces"),
    ("areas", Generator::Areas, "areas of every size up to what the file needs"),
    ("encodings", Generator::Encodings, "valid and damaged UTF-8"),
    ("limits", Generator::Limits, "long files at and around every limit"),
];

/// Of 1,000 cases of the mix. A case at the limits costs as much as some hundred others.
const SHARES: [(Generator, u64); 6] = [
    (Generator::Exhaustive, 400),
    (Generator::Edges, 150),
    (Generator::Grammar, 300),
    (Generator::Areas, 80),
    (Generator::Encodings, 68),
    (Generator::Limits, 2),
];

/// A case before its areas are measured.
#[derive(Clone, Debug)]
struct Draft {
    source: Vec<u8>,
    flags: u64,
    verdicts: Vec<u8>,
}

impl Draft {
    fn new(source: impl Into<Vec<u8>>, flags: u64) -> Draft {
        Draft { source: source.into(), flags, verdicts: vec![] }
    }

    fn with_verdicts(self, verdicts: Vec<u8>) -> Draft {
        Draft { verdicts, ..self }
    }

    fn with_areas(self, capacities: [usize; AREAS]) -> Case {
        Case { source: self.source, flags: self.flags, verdicts: self.verdicts, capacities }
    }
}

pub fn case(generator: Generator, seed: u64, index: u64) -> Case {
    let mut random = Random::new(seed, index);
    let draft = match generator {
        Generator::Mix => {
            let (generator, index) = share(index);
            return case(generator, seed, index);
        }
        Generator::Exhaustive => exhaustive::draft(&mut random, index),
        Generator::Edges => edges::draft(&mut random, index),
        Generator::Grammar => grammar::draft(&mut random),
        Generator::Encodings => encodings::draft(&mut random, index),
        Generator::Areas => return areas::case(&mut random, index),
        Generator::Limits => return limits::case(&mut random, index),
    };
    room::with_random_areas(&mut random, draft)
}

/// A case with room to spare in every area.
pub fn roomy_case(source: impl Into<Vec<u8>>, flags: u64) -> Case {
    let draft = Draft::new(source, flags);
    let capacities = roomy(draft.source.len());
    draft.with_areas(capacities)
}

/// The generator of a case of the mix, and the case's index there.
fn share(index: u64) -> (Generator, u64) {
    let (round, mut within) = (index / 1_000, index % 1_000);
    // spread over the round: 617 and 1,000 have no common factor
    within = within * 617 % 1_000;
    for (generator, share) in SHARES {
        if within < share {
            return (generator, round * share + within);
        }
        within -= share;
    }
    unreachable!("the shares add up to 1,000")
}

/// Mostly none; else a short list with zeros, ones and other values.
fn random_verdicts(random: &mut Random) -> Vec<u8> {
    if random.percent(70) {
        return vec![];
    }
    let length = 1 + random.below(6);
    (0..length).map(|_| random.pick(&[0, 0, 0, 0, 1, 2, 255])).collect()
}

/// The string of that index over an alphabet of that many letters: all of length 0, then 1, and so on.
pub fn letters_of_index(mut index: u64, alphabet: usize) -> Vec<usize> {
    let alphabet = alphabet as u64;
    let (mut length, mut strings) = (0, 1);
    while index >= strings {
        index -= strings;
        strings *= alphabet;
        length += 1;
    }
    let mut letters = vec![0; length];
    for letter in letters.iter_mut().rev() {
        *letter = (index % alphabet) as usize;
        index /= alphabet;
    }
    letters
}

#[cfg(test)]
mod tests {
    use super::*;
    use std::collections::HashSet;

    #[test]
    fn every_short_string_comes_once() {
        let strings: Vec<Vec<usize>> = (0..1 + 3 + 9 + 27).map(|index| letters_of_index(index, 3)).collect();
        assert!(strings.is_sorted_by_key(Vec::len));
        assert_eq!((&strings[0][..], &strings[4][..], &strings[39][..]), (&[][..], &[0, 0][..], &[2, 2, 2][..]));
        assert_eq!(strings.iter().collect::<HashSet<_>>().len(), strings.len());
    }

    #[test]
    fn a_round_of_the_mix_has_the_shares() {
        for (generator, wanted) in SHARES {
            let indices: HashSet<u64> =
                (2_000..3_000).map(share).filter(|(of, _)| *of == generator).map(|(_, index)| index).collect();
            assert_eq!(indices, (2 * wanted..3 * wanted).collect());
        }
    }

    #[test]
    fn a_case_is_a_function_of_its_number() {
        for (_, generator, _) in NAMES {
            assert_eq!(case(generator, 7, 11), case(generator, 7, 11));
        }
    }

    #[test]
    fn room_to_spare_is_enough() {
        let case = roomy_case("%s A B\n%expect-missing \"x\"\n%%\n<A,B>a ;\n\\q 'N'\n", 0);
        let needs = crate::oracle::needs(&case);
        assert!(needs.iter().zip(case.capacities).all(|(need, capacity)| *need < capacity), "{needs:?}");
    }
}
