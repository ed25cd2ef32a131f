//! Areas: with room to spare, exactly full, a few bytes short, and of any small size.

use super::Draft;
use crate::case::{AREAS, Case, RECORD_LIMITS, RECORD_SIZES};
use crate::oracle;
use crate::random::Random;

/// Enough for any file of that length, up to the limits and a record beyond them.
pub fn roomy(source_length: usize) -> [usize; AREAS] {
    let records = [
        2 + source_length / 2,
        2 + source_length / 4,
        2 + source_length / 2,
        4 + source_length * 2,
        2 + source_length / 3,
        4 + source_length / 2,
    ];
    std::array::from_fn(|area| records[area].min(RECORD_LIMITS[area] + 1) * RECORD_SIZES[area])
}

/// What the file needs.
pub fn exact(draft: &Draft) -> [usize; AREAS] {
    let mut needs = oracle::needs(&draft.clone().with_areas([0; AREAS]));
    for (need, (limit, size)) in needs.iter_mut().zip(RECORD_LIMITS.iter().zip(RECORD_SIZES)) {
        *need = (*need).min(limit * size);
    }
    needs
}

/// All areas exactly full but one, which lacks up to a record.
pub fn short(random: &mut Random, draft: &Draft) -> [usize; AREAS] {
    let mut capacities = exact(draft);
    let used: Vec<usize> = (0..AREAS).filter(|area| capacities[*area] > 0).collect();
    if !used.is_empty() {
        let area = random.pick(&used);
        capacities[area] -= 1 + random.below(RECORD_SIZES[area]);
    }
    capacities
}

pub fn with_random_areas(random: &mut Random, draft: Draft) -> Case {
    let capacities = match random.below(20) {
        0..10 => roomy(draft.source.len()).map(|length| length + random.below(9)),
        10..13 => exact(&draft),
        13..15 => exact(&draft).map(|length| length + random.below(9)),
        15..18 => short(random, &draft),
        18 => roomy(draft.source.len()).map(|length| random.below(length + 1)),
        _ => [40; AREAS].map(|bound| random.below(bound)),
    };
    draft.with_areas(capacities)
}
