//! Random numbers and sets; the same seed gives the same.

use crate::plain::Set;

/// A generator of random numbers (SplitMix64).
pub struct Random(pub u64);

impl Random {
    pub fn word(&mut self) -> u64 {
        self.0 = self.0.wrapping_add(0x9e37_79b9_7f4a_7c15);
        let mut z = self.0;
        z = (z ^ (z >> 30)).wrapping_mul(0xbf58_476d_1ce4_e5b9);
        z = (z ^ (z >> 27)).wrapping_mul(0x94d0_49bb_1331_11eb);
        z ^ (z >> 31)
    }

    pub fn below(&mut self, bound: usize) -> usize {
        (self.word() % bound as u64) as usize
    }

    /// So many pairs, some of them perhaps the same.
    pub fn pairs(&mut self, n: usize, count: usize) -> Set {
        let mut set = Set::empty(n);
        for _ in 0..count {
            let (x, y) = (self.below(n), self.below(n));
            set.put(x, y);
        }
        set
    }

    /// Each pair with so many chances in a hundred.
    pub fn dense(&mut self, n: usize, percent: usize) -> Set {
        Set::of(n, |_, _| self.below(100) < percent)
    }

    /// A list of the pairs of a set in any order, some of them twice.
    pub fn listed(&mut self, set: &Set) -> Vec<u32> {
        let mut list = set.list();
        let kept = list.len();
        for _ in 0..kept / 3 {
            list.push(list[self.below(kept)]);
        }
        for i in (1..list.len()).rev() {
            list.swap(i, self.below(i + 1));
        }
        list
    }
}
