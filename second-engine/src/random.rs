//! Random numbers from a seed (splitmix64).

use std::collections::BTreeSet;

pub struct Random {
    state: u64,
}

impl Random {
    pub fn new(seed: u64) -> Random {
        Random { state: seed }
    }

    pub fn next(&mut self) -> u64 {
        self.state = self.state.wrapping_add(0x9E37_79B9_7F4A_7C15);
        let mut mixed = self.state;
        mixed = (mixed ^ (mixed >> 30)).wrapping_mul(0xBF58_476D_1CE4_E5B9);
        mixed = (mixed ^ (mixed >> 27)).wrapping_mul(0x94D0_49BB_1331_11EB);
        mixed ^ (mixed >> 31)
    }

    /// A number from 0 to `end` - 1.
    pub fn below(&mut self, end: usize) -> usize {
        (self.next() % end as u64) as usize
    }

    /// A number from `first` to `last`.
    pub fn between(&mut self, first: usize, last: usize) -> usize {
        first + self.below(last - first + 1)
    }

    pub fn percent(&mut self, chance: usize) -> bool {
        self.below(100) < chance
    }

    pub fn word(&mut self) -> u16 {
        self.next() as u16
    }

    pub fn byte(&mut self) -> u8 {
        self.next() as u8
    }

    pub fn pick<T: Copy>(&mut self, list: &[T]) -> T {
        list[self.below(list.len())]
    }

    /// One of the items that fit.
    pub fn pick_where<T: Copy>(&mut self, list: &[T], fits: impl Fn(&T) -> bool) -> Option<T> {
        let fitting: Vec<T> = list.iter().copied().filter(|item| fits(item)).collect();
        if fitting.is_empty() {
            return None;
        }
        Some(self.pick(&fitting))
    }

    /// One element, or `None` of an empty set.
    pub fn member<T: Copy>(&mut self, set: &BTreeSet<T>) -> Option<T> {
        if set.is_empty() {
            return None;
        }
        set.iter().nth(self.below(set.len())).copied()
    }

    /// One of the elements that fit.
    pub fn member_where<T: Copy>(
        &mut self,
        set: &BTreeSet<T>,
        fits: impl Fn(&T) -> bool,
    ) -> Option<T> {
        let list: Vec<T> = set.iter().copied().collect();
        self.pick_where(&list, fits)
    }

    /// `count` different numbers of 0 to 15.
    pub fn names(&mut self, count: usize) -> Vec<usize> {
        let mut left: Vec<usize> = (0..16).collect();
        (0..count)
            .map(|_| left.remove(self.below(left.len())))
            .collect()
    }

    /// The place of a weight, taken in proportion.
    pub fn weighted(&mut self, weights: &[usize]) -> usize {
        let mut rest = self.below(weights.iter().sum());
        for (place, &weight) in weights.iter().enumerate() {
            if rest < weight {
                return place;
            }
            rest -= weight;
        }
        unreachable!("the rest is below the sum");
    }
}
