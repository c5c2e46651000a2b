//! Sets of pairs of records as rows of bits, 64 columns to a word.

#[derive(Clone, Debug, PartialEq, Eq)]
pub struct Rows {
    width: usize,
    words: Vec<u64>,
}

impl Rows {
    pub fn empty(n: usize) -> Rows {
        let width = n.div_ceil(64);
        Rows { width, words: vec![0; n * width] }
    }

    fn n(&self) -> usize {
        self.words.len() / self.width
    }

    fn row(&self, from: usize) -> &[u64] {
        &self.words[from * self.width..][..self.width]
    }

    fn row_mut(&mut self, from: usize) -> &mut [u64] {
        &mut self.words[from * self.width..][..self.width]
    }

    pub fn insert(&mut self, from: usize, to: usize) {
        self.words[from * self.width + to / 64] |= 1 << (to % 64);
    }

    fn has(&self, from: usize, to: usize) -> bool {
        self.words[from * self.width + to / 64] >> (to % 64) & 1 == 1
    }

    pub fn union(mut self, other: &Rows) -> Rows {
        or(&mut self.words, &other.words);
        self
    }

    /// With every record joined to itself.
    pub fn with_identity(mut self) -> Rows {
        for record in 0..self.n() {
            self.insert(record, record);
        }
        self
    }

    /// Each row is the union of the other's rows at its bits.
    pub fn product(&self, other: &Rows) -> Rows {
        let mut product = Rows::empty(self.n());
        for from in 0..self.n() {
            bits(self.row(from)).for_each(|middle| or(product.row_mut(from), other.row(middle)));
        }
        product
    }

    /// One or more steps: Warshall's algorithm.
    pub fn closure(mut self) -> Rows {
        let mut reached = vec![0; self.width];
        for middle in 0..self.n() {
            reached.copy_from_slice(self.row(middle));
            if reached.iter().all(|&word| word == 0) {
                continue;
            }
            for from in 0..self.n() {
                if self.has(from, middle) {
                    or(self.row_mut(from), &reached);
                }
            }
        }
        self
    }

    pub fn transpose(&self) -> Rows {
        let mut transpose = Rows::empty(self.n());
        for from in 0..self.n() {
            bits(self.row(from)).for_each(|to| transpose.insert(to, from));
        }
        transpose
    }

    pub fn count(&self) -> usize {
        self.words.iter().map(|word| word.count_ones() as usize).sum()
    }

    /// The pairs in ascending order.
    pub fn pairs(&self) -> impl Iterator<Item = (usize, usize)> + '_ {
        (0..self.n()).flat_map(|from| bits(self.row(from)).map(move |to| (from, to)))
    }
}

fn or(into: &mut [u64], words: &[u64]) {
    for (into, word) in into.iter_mut().zip(words) {
        *into |= word;
    }
}

/// The places of the ones, ascending.
fn bits(words: &[u64]) -> impl Iterator<Item = usize> + '_ {
    words.iter().enumerate().flat_map(|(at, &word)| ones(word).map(move |bit| at * 64 + bit))
}

/// The places of a word's ones, ascending.
pub fn ones(mut word: u64) -> impl Iterator<Item = usize> {
    std::iter::from_fn(move || {
        let bit = word.trailing_zeros() as usize;
        word &= word.wrapping_sub(1);
        (bit < 64).then_some(bit)
    })
}

#[cfg(test)]
mod tests {
    use super::*;

    fn rows(n: usize, pairs: &[(usize, usize)]) -> Rows {
        let mut rows = Rows::empty(n);
        pairs.iter().for_each(|&(from, to)| rows.insert(from, to));
        rows
    }

    #[test]
    fn operations_across_words() {
        let a = rows(130, &[(0, 64), (64, 129), (5, 63)]);
        let b = rows(130, &[(64, 1), (129, 0), (63, 63)]);
        assert_eq!(a.product(&b), rows(130, &[(0, 1), (64, 0), (5, 63)]));
        assert_eq!(a.transpose(), rows(130, &[(64, 0), (129, 64), (63, 5)]));
        assert_eq!(a.clone().union(&b).count(), 6);
        assert_eq!(a.clone().closure(), rows(130, &[(0, 64), (64, 129), (0, 129), (5, 63)]));
        assert_eq!(a.pairs().collect::<Vec<_>>(), [(0, 64), (5, 63), (64, 129)]);
        assert_eq!(Rows::empty(130).with_identity().pairs().last(), Some((129, 129)));
    }

    #[test]
    fn the_closure_of_a_ring_is_full() {
        for n in [1, 2, 63, 64, 65, 200] {
            let ring: Vec<_> = (0..n).map(|x| (x, (x + 1) % n)).collect();
            assert_eq!(rows(n, &ring).closure().count(), n * n);
        }
    }
}
