//! Makes a failing case small: it stays failing through every step.

use crate::case::Case;
use crate::generators;

/// Enough for any case; a long file is cut by halves first.
const MOST_TRIES: usize = 20_000;

pub fn shrink(case: Case, fails: impl Fn(&Case) -> bool) -> Case {
    let mut shrinking = Shrinking { case, fails, tries: 0 };
    while shrinking.round() {}
    shrinking.case
}

struct Shrinking<F> {
    case: Case,
    fails: F,
    tries: usize,
}

impl<F: Fn(&Case) -> bool> Shrinking<F> {
    /// One round of all steps; whether any of them helped.
    fn round(&mut self) -> bool {
        let before = self.case.clone();
        self.remove_bytes();
        self.simplify_characters();
        self.shorten_verdicts();
        self.lower_flags();
        self.change_areas();
        self.case != before && self.tries < MOST_TRIES
    }

    fn try_case(&mut self, case: Case) -> bool {
        self.tries += 1;
        let better = case != self.case && self.tries < MOST_TRIES && (self.fails)(&case);
        if better {
            self.case = case;
        }
        better
    }

    fn remove_bytes(&mut self) {
        let mut length = self.case.source.len().div_ceil(2);
        while length > 4 {
            self.remove_pieces(length);
            length /= 2;
        }
        self.remove_lines();
        // characters have up to 4 bytes
        for length in (1..=4).rev() {
            self.remove_pieces(length);
        }
    }

    fn remove_pieces(&mut self, length: usize) {
        let step = if length > 4 { length } else { 1 };
        let mut at = 0;
        while at < self.case.source.len() && self.tries < MOST_TRIES {
            let end = (at + length).min(self.case.source.len());
            if !self.remove(at, end) {
                at += step;
            }
        }
    }

    fn remove_lines(&mut self) {
        let mut at = 0;
        while at < self.case.source.len() && self.tries < MOST_TRIES {
            let line = self.case.source[at..].iter().position(|byte| *byte == b'\n');
            let end = line.map_or(self.case.source.len(), |length| at + length + 1);
            if !self.remove(at, end) {
                at = end;
            }
        }
    }

    fn remove(&mut self, start: usize, end: usize) -> bool {
        let mut case = self.case.clone();
        case.source.drain(start..end);
        self.try_case(case)
    }

    fn simplify_characters(&mut self) {
        for at in 0..self.case.source.len().min(200) {
            if self.case.source[at].is_ascii_alphanumeric() && self.case.source[at] != b'a' {
                let mut case = self.case.clone();
                case.source[at] = b'a';
                self.try_case(case);
            }
        }
    }

    fn shorten_verdicts(&mut self) {
        for length in [0, self.case.verdicts.len() / 2, self.case.verdicts.len().saturating_sub(1)] {
            let mut case = self.case.clone();
            case.verdicts.truncate(length);
            self.try_case(case);
        }
    }

    fn lower_flags(&mut self) {
        for flags in 0..self.case.flags.min(5) {
            if self.try_case(Case { flags, ..self.case.clone() }) {
                break;
            }
        }
    }

    /// Room to spare says most clearly that no area matters; else each area as short as possible.
    fn change_areas(&mut self) {
        let roomy = generators::roomy(self.case.source.len());
        if self.case.capacities == roomy || self.try_case(Case { capacities: roomy, ..self.case.clone() }) {
            return;
        }
        for (area, roomy) in roomy.into_iter().enumerate() {
            let length = self.case.capacities[area];
            for length in [roomy, 0, length / 2, length.saturating_sub(1)] {
                if length == roomy || length < self.case.capacities[area] {
                    let mut case = self.case.clone();
                    case.capacities[area] = length;
                    self.try_case(case);
                }
            }
        }
    }
}

#[cfg(test)]
mod tests {
    use super::*;
    use crate::case::{AREAS, Case};

    #[test]
    fn what_does_not_matter_goes() {
        let source = b"%s A\n%%\n// words\n<A>b 'N'\nx ;\n".repeat(40);
        let case = Case { source, flags: 3, verdicts: vec![0, 1, 0], capacities: [9; AREAS] };
        let small = shrink(case, |case| case.source.contains(&b'<') && case.flags & 1 == 1);
        assert_eq!((&small.source[..], small.flags, &small.verdicts[..]), (&b"<"[..], 1, &[][..]));
        assert_eq!(small.capacities, generators::roomy(1));
    }

    #[test]
    fn an_area_that_matters_is_made_short() {
        let case = Case { source: b"%%\na ;".to_vec(), flags: 0, verdicts: vec![], capacities: [50; AREAS] };
        let small = shrink(case, |case| (12..=50).contains(&case.capacities[1]));
        assert_eq!(small.capacities[1], 12);
    }
}
