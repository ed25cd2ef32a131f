//! Areas of every small size: each area from no byte to a record more than the file needs.

use super::edges::FILES;
use super::{Draft, grammar, random_verdicts, room};
use crate::case::{AREAS, Case, RECORD_SIZES};
use crate::random::Random;

pub fn case(random: &mut Random, index: u64) -> Case {
    systematic(random, index).unwrap_or_else(|| {
        let draft = grammar::draft(random);
        let capacities = one_area_of_any_size(random, &draft);
        draft.with_areas(capacities)
    })
}

/// Each file with each area of each size, the others with room to spare.
fn systematic(random: &mut Random, mut index: u64) -> Option<Case> {
    for file in FILES {
        let draft = Draft::new(*file, 0);
        let needs = room::exact(&draft);
        for area in 0..AREAS {
            let sizes = (needs[area] + RECORD_SIZES[area] + 1) as u64;
            if index < sizes {
                let mut capacities = room::roomy(file.len());
                capacities[area] = index as usize;
                return Some(draft.with_verdicts(random_verdicts(random)).with_areas(capacities));
            }
            index -= sizes;
        }
    }
    None
}

fn one_area_of_any_size(random: &mut Random, draft: &Draft) -> [usize; AREAS] {
    let needs = room::exact(draft);
    let mut capacities = if random.percent(50) { needs } else { room::roomy(draft.source.len()) };
    let area = random.below(AREAS);
    capacities[area] = random.below(needs[area] + RECORD_SIZES[area] + 1);
    capacities
}
