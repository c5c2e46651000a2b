//! Sets of pairs of records below n as rows of bits, and the set that an expression means.

use crate::book::Sheet;
use crate::expression::Expression;

/// A set of pairs: row `x` has bit `y` if (x, y) is in the set.
#[derive(Clone, Debug, PartialEq, Eq)]
pub struct Relation {
    n: u32,
    rows: Vec<Vec<u64>>,
}

impl Relation {
    pub fn empty(n: u32) -> Relation {
        Relation { n, rows: vec![vec![0; n.div_ceil(64) as usize]; n as usize] }
    }

    /// Each record with itself.
    pub fn identity(n: u32) -> Relation {
        Relation::of(n, (0..n).map(|x| (x, x)))
    }

    /// Zero steps: each record that is not withdrawn with itself (S3.8).
    pub fn zero_steps(n: u32, sheet: &Sheet) -> Relation {
        Relation::of(n, (0..n).filter(|x| !sheet.withdrawn.contains(x)).map(|x| (x, x)))
    }

    /// The set of these pairs, all below n.
    pub fn of(n: u32, pairs: impl IntoIterator<Item = (u32, u32)>) -> Relation {
        let mut set = Relation::empty(n);
        for (x, y) in pairs {
            assert!(x < n && y < n, "pair ({x}, {y}) is not below {n}");
            set.rows[x as usize][y as usize / 64] |= 1 << (y % 64);
        }
        set
    }

    pub fn n(&self) -> u32 {
        self.n
    }

    pub fn has(&self, x: u32, y: u32) -> bool {
        x < self.n && y < self.n && self.rows[x as usize][y as usize / 64] >> (y % 64) & 1 == 1
    }

    /// All records that `x` is paired with, ascending.
    fn row(&self, x: u32) -> impl Iterator<Item = u32> + '_ {
        self.rows[x as usize].iter().zip((0..).step_by(64)).flat_map(|(&word, base)| {
            let mut left = word;
            std::iter::from_fn(move || {
                (left != 0).then(|| {
                    let bit = left.trailing_zeros();
                    left &= left - 1;
                    base + bit
                })
            })
        })
    }

    /// All pairs, ascending.
    pub fn pairs(&self) -> impl Iterator<Item = (u32, u32)> + '_ {
        (0..self.n).flat_map(move |x| self.row(x).map(move |y| (x, y)))
    }

    /// All pairs as words, from × 1,024 + to, ascending (S5.11).
    pub fn pair_words(&self) -> Vec<u32> {
        self.pairs().map(|(x, y)| x * 1024 + y).collect()
    }

    /// The ends of a record: all that it is paired with, ascending (S21.1).
    pub fn ends(&self, from: u32) -> Vec<u32> {
        self.row(from).collect()
    }

    /// The starts of a record: all that are paired with it, ascending.
    pub fn starts(&self, to: u32) -> Vec<u32> {
        (0..self.n).filter(|&x| self.has(x, to)).collect()
    }

    fn wordwise(&self, other: &Relation, combine: impl Fn(u64, u64) -> u64) -> Relation {
        let rows = self.rows.iter().zip(&other.rows);
        let rows = rows.map(|(left, right)| left.iter().zip(right).map(|(&l, &r)| combine(l, r)).collect());
        Relation { n: self.n, rows: rows.collect() }
    }

    pub fn union(&self, other: &Relation) -> Relation {
        self.wordwise(other, |l, r| l | r)
    }

    pub fn intersection(&self, other: &Relation) -> Relation {
        self.wordwise(other, |l, r| l & r)
    }

    pub fn difference(&self, other: &Relation) -> Relation {
        self.wordwise(other, |l, r| l & !r)
    }

    /// (x, z) is in it if (x, y) is in this set and (y, z) in the other for some y.
    pub fn product(&self, other: &Relation) -> Relation {
        let mut product = Relation::empty(self.n);
        for (x, y) in self.pairs() {
            add_row(&mut product.rows[x as usize], &other.rows[y as usize]);
        }
        product
    }

    pub fn transpose(&self) -> Relation {
        Relation::of(self.n, self.pairs().map(|(x, y)| (y, x)))
    }

    /// One or more: after the turn of `y` it has the pairs joined by way of records up to `y` (Warshall).
    pub fn closure(&self) -> Relation {
        let mut closure = self.clone();
        for y in 0..self.n {
            let through = closure.rows[y as usize].clone();
            for x in 0..self.n {
                if closure.has(x, y) {
                    add_row(&mut closure.rows[x as usize], &through);
                }
            }
        }
        closure
    }

    /// The pairs that an expression means over a sheet.
    pub fn meant(n: u32, sheet: &Sheet, expression: &Expression) -> Relation {
        let meant = |part: &Expression| Relation::meant(n, sheet, part);
        match expression {
            Expression::Letter(label) => {
                let links = sheet.links.iter().filter(|link| link.label == *label);
                Relation::of(n, links.map(|link| (link.from, link.to)))
            }
            Expression::NoneOf(members) => {
                // Whether a link's label is left in this sense: there is a member of the sense, and none has the label.
                let left = |against: bool, label: u32| {
                    let mut named =
                        members.iter().filter(|member| member.against == against).map(|member| member.label);
                    named.clone().next().is_some() && named.all(|other| other != label)
                };
                let forward =
                    sheet.links.iter().filter(|link| left(false, link.label)).map(|link| (link.from, link.to));
                let against = sheet.links.iter().filter(|link| left(true, link.label)).map(|link| (link.to, link.from));
                Relation::of(n, forward.chain(against))
            }
            Expression::Inverse(part) => meant(part).transpose(),
            Expression::Alternative(left, right) => meant(left).union(&meant(right)),
            Expression::Sequence(left, right) => meant(left).product(&meant(right)),
            Expression::Plus(part) => meant(part).closure(),
            Expression::Star(part) => meant(part).closure().union(&Relation::zero_steps(n, sheet)),
            Expression::Optional(part) => meant(part).union(&Relation::zero_steps(n, sheet)),
        }
    }
}

fn add_row(row: &mut [u64], added: &[u64]) {
    for (word, more) in row.iter_mut().zip(added) {
        *word |= more;
    }
}
