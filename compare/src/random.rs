//! A small deterministic generator of numbers (splitmix64).

pub struct Random {
    state: u64,
}

impl Random {
    /// The same seed and index give the same numbers on every machine.
    pub fn new(seed: u64, index: u64) -> Random {
        let mut random = Random { state: seed.wrapping_mul(0x9e37_79b9_7f4a_7c15) ^ index };
        random.next();
        random
    }

    fn next(&mut self) -> u64 {
        self.state = self.state.wrapping_add(0x9e37_79b9_7f4a_7c15);
        let mut mixed = self.state;
        mixed = (mixed ^ (mixed >> 30)).wrapping_mul(0xbf58_476d_1ce4_e5b9);
        mixed = (mixed ^ (mixed >> 27)).wrapping_mul(0x94d0_49bb_1331_11eb);
        mixed ^ (mixed >> 31)
    }

    /// A number below the bound, which is at least 1.
    pub fn below(&mut self, bound: usize) -> usize {
        (self.next() % bound as u64) as usize
    }

    /// True in that many of 100 cases.
    pub fn percent(&mut self, share: usize) -> bool {
        self.below(100) < share
    }

    pub fn pick<T: Copy>(&mut self, items: &[T]) -> T {
        items[self.below(items.len())]
    }

    pub fn shuffle<T>(&mut self, items: &mut [T]) {
        for last in (1..items.len()).rev() {
            items.swap(last, self.below(last + 1));
        }
    }
}

#[cfg(test)]
mod tests {
    use super::*;

    #[test]
    fn numbers_are_those_of_splitmix64() {
        // its published numbers of the seed 0; the first of them is passed over
        let mut random = Random::new(0, 0);
        assert_eq!([random.next(), random.next()], [0x6e78_9e6a_a1b9_65f4, 0x06c4_5d18_8009_454f]);
    }

    #[test]
    fn a_case_can_be_made_again() {
        let numbers = |seed, index| {
            let mut random = Random::new(seed, index);
            [(); 8].map(|()| random.below(1_000))
        };
        assert_eq!(numbers(3, 5), numbers(3, 5));
        assert_ne!(numbers(3, 5), numbers(3, 6));
        assert_ne!(numbers(3, 5), numbers(4, 5));
    }

    #[test]
    fn a_shuffle_keeps_every_item() {
        let mut items: Vec<usize> = (0..100).collect();
        Random::new(1, 2).shuffle(&mut items);
        assert!(!items.is_sorted());
        items.sort();
        assert_eq!(items, (0..100).collect::<Vec<_>>());
    }
}
