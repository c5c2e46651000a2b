//! Sets of pairs of records as a table of cells, and k2-trees by their definition: level by level, each a list of squares.

/// A set of pairs of records below n: cell x * n + y is 1 if (x, y) is in it, else 0.
#[derive(Clone, Debug, PartialEq)]
pub struct Set {
    pub n: usize,
    cells: Vec<u8>,
}

impl Set {
    pub fn empty(n: usize) -> Set {
        Set { n, cells: vec![0; n * n] }
    }

    pub fn of(n: usize, mut has: impl FnMut(usize, usize) -> bool) -> Set {
        let mut set = Set::empty(n);
        for x in 0..n {
            for y in 0..n {
                if has(x, y) {
                    set.put(x, y);
                }
            }
        }
        set
    }

    pub fn put(&mut self, x: usize, y: usize) {
        self.cells[x * self.n + y] = 1;
    }

    pub fn has(&self, x: usize, y: usize) -> bool {
        self.cells[x * self.n + y] == 1
    }

    fn row(&self, x: usize) -> &[u8] {
        &self.cells[x * self.n..(x + 1) * self.n]
    }

    /// The pair words, ascending.
    pub fn list(&self) -> Vec<u32> {
        let mut list = Vec::new();
        for x in 0..self.n {
            for (y, &cell) in self.row(x).iter().enumerate() {
                if cell == 1 {
                    list.push((x * 1024 + y) as u32);
                }
            }
        }
        list
    }

    fn both(&self, other: &Set, cell: impl Fn(u8, u8) -> u8) -> Set {
        let cells = self.cells.iter().zip(&other.cells).map(|(&a, &b)| cell(a, b)).collect();
        Set { n: self.n, cells }
    }

    pub fn union(&self, other: &Set) -> Set {
        self.both(other, |a, b| a | b)
    }

    pub fn intersection(&self, other: &Set) -> Set {
        self.both(other, |a, b| a & b)
    }

    pub fn difference(&self, other: &Set) -> Set {
        self.both(other, |a, b| a & (1 - b))
    }

    pub fn transpose(&self) -> Set {
        Set::of(self.n, |x, y| self.has(y, x))
    }

    pub fn with_identity(&self) -> Set {
        Set::of(self.n, |x, y| x == y || self.has(x, y))
    }

    /// The pairs (x, y) for which some z has (x, z) here and (z, y) in the other.
    pub fn product(&self, other: &Set) -> Set {
        let n = self.n;
        let mut out = Set::empty(n);
        for x in 0..n {
            let row = &mut out.cells[x * n..(x + 1) * n];
            for z in (0..n).filter(|&z| self.has(x, z)) {
                row.iter_mut().zip(other.row(z)).for_each(|(cell, &step)| *cell |= step);
            }
        }
        out
    }

    /// The pairs (x, y) such that y is reached from x by one or more pairs: from each x by depth first search.
    pub fn closure(&self) -> Set {
        let n = self.n;
        let next: Vec<Vec<usize>> = (0..n).map(|x| (0..n).filter(|&y| self.has(x, y)).collect()).collect();
        let mut out = Set::empty(n);
        let mut waiting = Vec::new();
        for x in 0..n {
            let mut left = n;
            waiting.push(x);
            while let Some(z) = waiting.pop() {
                if left == 0 {
                    continue;
                }
                for &y in &next[z] {
                    if !out.has(x, y) {
                        out.put(x, y);
                        left -= 1;
                        waiting.push(y);
                    }
                }
            }
        }
        out
    }

    /// The words of its tree.
    pub fn tree(&self) -> Vec<u64> {
        let mut bits = Bits::default();
        let mut size = side(self.n);
        let pairs: Vec<(usize, usize)> = self.list().iter().map(|&p| (p as usize / 1024, p as usize % 1024)).collect();
        let mut level = if pairs.is_empty() { vec![] } else { vec![pairs] };
        while size > 1 {
            size /= 2;
            let mut below = Vec::new();
            for square in level {
                let mut quarters: [Vec<(usize, usize)>; 4] = Default::default();
                for (x, y) in square {
                    quarters[x / size * 2 + y / size].push((x % size, y % size));
                }
                for quarter in quarters {
                    bits.push(!quarter.is_empty());
                    if !quarter.is_empty() {
                        below.push(quarter);
                    }
                }
            }
            level = below;
        }
        bits.words
    }
}

/// The side of the square for n records: the least power of two that is at least n, and at least 2.
pub fn side(n: usize) -> usize {
    n.max(2).next_power_of_two()
}

/// D, the words of a full tree.
pub fn unit(n: usize) -> usize {
    let s = side(n);
    (4 * (s * s - 1) / 3).div_ceil(64)
}

/// Bits one after another, 64 to a word, the lowest first.
#[derive(Default)]
struct Bits {
    words: Vec<u64>,
    count: usize,
}

impl Bits {
    fn push(&mut self, bit: bool) {
        if self.count.is_multiple_of(64) {
            self.words.push(0);
        }
        *self.words.last_mut().unwrap() |= (bit as u64) << (self.count % 64);
        self.count += 1;
    }
}

/// The set whose tree this is; none if the words are not the tree of a set of pairs below n.
pub fn set_of_tree(n: usize, words: &[u64]) -> Option<Set> {
    let mut set = Set::empty(n);
    if words.is_empty() {
        return Some(set);
    }
    let mut at = 0;
    let mut level = vec![(0, 0)];
    let mut size = side(n);
    while size > 1 {
        size /= 2;
        let mut below = Vec::new();
        for (x, y) in level {
            if at + 4 > 64 * words.len() {
                return None;
            }
            let four = words[at / 64] >> (at % 64) & 15;
            at += 4;
            if four == 0 {
                return None;
            }
            for quarter in (0..4).filter(|q| four >> q & 1 == 1) {
                below.push((x + quarter / 2 * size, y + quarter % 2 * size));
            }
        }
        level = below;
    }
    if at.div_ceil(64) != words.len() || (at % 64 != 0 && words[at / 64] >> (at % 64) != 0) {
        return None;
    }
    for (x, y) in level {
        if x >= n || y >= n {
            return None;
        }
        set.put(x, y);
    }
    Some(set)
}
