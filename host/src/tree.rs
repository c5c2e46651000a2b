//! Sets of pairs as k2-trees, and their algebra.

use crate::calls::{self, counted};
use crate::space::{most_pairs, tree_words, tree_work};
use crate::{Pairs, Refusal};

/// The words of a k2-tree with k = 2: a set of pairs of records below some n.
#[must_use]
#[derive(Clone, Debug, PartialEq, Eq, Hash)]
pub struct Tree(Vec<u64>);

impl Tree {
    /// A tree of these words. Whether they are well formed is looked at by each call that is lent the tree.
    ///
    /// ```
    /// // one pair of records below 2, (1, 0), is the third bit of the only square
    /// let mut trees = dating::Trees::below(2)?;
    /// assert_eq!(trees.list(&dating::Tree::of_words(vec![4]))?.collect::<Vec<_>>(), [(1, 0)]);
    /// assert_eq!(trees.list(&dating::Tree::of_words(vec![0])).err(), Some(dating::Refusal::Tree));
    /// # Ok::<(), dating::Refusal>(())
    /// ```
    pub fn of_words(words: Vec<u64>) -> Tree {
        Tree(words)
    }

    /// Bit 0 is the lowest of the first word; the empty set has no words.
    ///
    /// ```
    /// let mut trees = dating::Trees::below(2)?;
    /// assert_eq!((trees.make([(1, 0)])?.words(), trees.make([])?.words()), (&[4][..], &[][..]));
    /// # Ok::<(), dating::Refusal>(())
    /// ```
    #[must_use]
    pub fn words(&self) -> &[u64] {
        &self.0
    }
}

/// How an operand is read: as it is, or with its pairs exchanged.
#[derive(Clone, Copy, Debug, PartialEq, Eq, Hash)]
pub enum Sense {
    Plain = 0,
    Inverted = 1,
}

/// The operations on trees of pairs below n, with the space that they need: for n = 1,024, 5.8 MB, and 4.2 MB for a list.
///
/// ```
/// let mut trees = dating::Trees::below(4)?;
/// let links = trees.make([(0, 1), (1, 2)])?;
/// let joined = trees.closure(&links)?;
/// assert_eq!(trees.list(&joined)?.collect::<Vec<_>>(), [(0, 1), (0, 2), (1, 2)]);
/// # Ok::<(), dating::Refusal>(())
/// ```
pub struct Trees {
    n: u16,
    work: Vec<u64>,
    tree: Vec<u64>,
    list: Vec<u32>,
}

type Binary = fn(usize, &[u64], &[u64], &mut [u64], &mut [u64]) -> u64;
type Unary = fn(usize, &[u64], &mut [u64], &mut [u64]) -> u64;

impl Trees {
    /// For pairs of records below n, n from 1 to 1,024.
    ///
    /// ```
    /// assert!(dating::Trees::below(1024).is_ok());
    /// assert_eq!(dating::Trees::below(0).err(), Some(dating::Refusal::Size));
    /// # Ok::<(), dating::Refusal>(())
    /// ```
    pub fn below(n: u16) -> Result<Trees, Refusal> {
        let mut trees = Trees { n, work: vec![0; tree_work(n)], tree: vec![0; tree_words(n)], list: Vec::new() };
        let _ = trees.make([])?;
        Ok(trees)
    }

    /// The tree of some pairs, in any order and with repeats.
    ///
    /// ```
    /// let mut trees = dating::Trees::below(4)?;
    /// assert_eq!(trees.make([(2, 3), (0, 1), (2, 3)])?, trees.make([(0, 1), (2, 3)])?);
    /// assert_eq!(trees.make([(0, 4)]).err(), Some(dating::Refusal::Record));
    /// # Ok::<(), dating::Refusal>(())
    /// ```
    pub fn make(&mut self, pairs: impl IntoIterator<Item = (u16, u16)>) -> Result<Tree, Refusal> {
        // An end above 1,023 has no place in a pair word; a word above all pairs is refused with 2 as it would be.
        let word = |(from, to): (u16, u16)| if from.max(to) < 1024 { u32::from(from) * 1024 + u32::from(to) } else { u32::MAX };
        let pairs: Vec<u32> = pairs.into_iter().map(word).collect();
        let count = counted(calls::tree_make(self.n.into(), &pairs, &mut self.tree, &mut self.work))?;
        Ok(self.made(count))
    }

    /// The pairs of a tree.
    ///
    /// ```
    /// let mut trees = dating::Trees::below(4)?;
    /// let tree = trees.make([(2, 3), (0, 1)])?;
    /// assert_eq!(trees.list(&tree)?.collect::<Vec<_>>(), [(0, 1), (2, 3)]);
    /// # Ok::<(), dating::Refusal>(())
    /// ```
    pub fn list(&mut self, tree: &Tree) -> Result<Pairs<'_>, Refusal> {
        self.list.resize(most_pairs(self.n), 0);
        let total = counted(calls::tree_list(self.n.into(), &tree.0, &mut self.list, &mut self.work))?;
        Ok(Pairs::new(&self.list, total))
    }

    /// The pairs in either.
    ///
    /// ```
    /// let mut trees = dating::Trees::below(4)?;
    /// let (a, b) = (trees.make([(0, 1), (1, 2)])?, trees.make([(1, 2), (2, 3)])?);
    /// let made = trees.union(&a, &b)?;
    /// assert_eq!(trees.list(&made)?.collect::<Vec<_>>(), [(0, 1), (1, 2), (2, 3)]);
    /// # Ok::<(), dating::Refusal>(())
    /// ```
    pub fn union(&mut self, a: &Tree, b: &Tree) -> Result<Tree, Refusal> {
        self.of_two(calls::tree_union, a, b)
    }

    /// The pairs in both.
    ///
    /// ```
    /// let mut trees = dating::Trees::below(4)?;
    /// let (a, b) = (trees.make([(0, 1), (1, 2)])?, trees.make([(1, 2), (2, 3)])?);
    /// let made = trees.intersection(&a, &b)?;
    /// assert_eq!(trees.list(&made)?.collect::<Vec<_>>(), [(1, 2)]);
    /// # Ok::<(), dating::Refusal>(())
    /// ```
    pub fn intersection(&mut self, a: &Tree, b: &Tree) -> Result<Tree, Refusal> {
        self.of_two(calls::tree_intersection, a, b)
    }

    /// The pairs in the first and not in the second.
    ///
    /// ```
    /// let mut trees = dating::Trees::below(4)?;
    /// let (a, b) = (trees.make([(0, 1), (1, 2)])?, trees.make([(1, 2), (2, 3)])?);
    /// let made = trees.difference(&a, &b)?;
    /// assert_eq!(trees.list(&made)?.collect::<Vec<_>>(), [(0, 1)]);
    /// # Ok::<(), dating::Refusal>(())
    /// ```
    pub fn difference(&mut self, a: &Tree, b: &Tree) -> Result<Tree, Refusal> {
        self.of_two(calls::tree_difference, a, b)
    }

    /// The pairs (x, z) with (x, y) in the first and (y, z) in the second for some y.
    ///
    /// ```
    /// let mut trees = dating::Trees::below(4)?;
    /// let (a, b) = (trees.make([(0, 1), (1, 2)])?, trees.make([(1, 2), (2, 3)])?);
    /// let made = trees.product(&a, &b)?;
    /// assert_eq!(trees.list(&made)?.collect::<Vec<_>>(), [(0, 2), (1, 3)]);
    /// # Ok::<(), dating::Refusal>(())
    /// ```
    pub fn product(&mut self, a: &Tree, b: &Tree) -> Result<Tree, Refusal> {
        self.product_sensed(a, Sense::Plain, b, Sense::Plain)
    }

    /// The product of the operands as they are read: of the transpose of each that is inverted, which is not written.
    ///
    /// ```
    /// use dating::Sense::{Inverted, Plain};
    /// let mut trees = dating::Trees::below(4)?;
    /// let parents = trees.make([(0, 2), (1, 2), (2, 3)])?;
    /// let siblings = trees.product_sensed(&parents, Plain, &parents, Inverted)?;
    /// assert_eq!(trees.list(&siblings)?.collect::<Vec<_>>(), [(0, 0), (0, 1), (1, 0), (1, 1), (2, 2)]);
    /// # Ok::<(), dating::Refusal>(())
    /// ```
    pub fn product_sensed(&mut self, a: &Tree, a_sense: Sense, b: &Tree, b_sense: Sense) -> Result<Tree, Refusal> {
        let senses = (a_sense as u8, b_sense as u8);
        let count = counted(calls::tree_product(self.n.into(), &a.0, senses.0, &b.0, senses.1, &mut self.tree, &mut self.work))?;
        Ok(self.made(count))
    }

    /// Each pair exchanged.
    ///
    /// ```
    /// let mut trees = dating::Trees::below(4)?;
    /// let a = trees.make([(0, 1), (1, 2)])?;
    /// let made = trees.transpose(&a)?;
    /// assert_eq!(trees.list(&made)?.collect::<Vec<_>>(), [(1, 0), (2, 1)]);
    /// # Ok::<(), dating::Refusal>(())
    /// ```
    pub fn transpose(&mut self, a: &Tree) -> Result<Tree, Refusal> {
        self.of_one(calls::tree_transpose, a)
    }

    /// The pairs joined by one or more pairs, one after the other.
    ///
    /// ```
    /// let mut trees = dating::Trees::below(4)?;
    /// let a = trees.make([(0, 1), (1, 2)])?;
    /// let made = trees.closure(&a)?;
    /// assert_eq!(trees.list(&made)?.collect::<Vec<_>>(), [(0, 1), (0, 2), (1, 2)]);
    /// # Ok::<(), dating::Refusal>(())
    /// ```
    pub fn closure(&mut self, a: &Tree) -> Result<Tree, Refusal> {
        self.of_one(calls::tree_closure, a)
    }

    fn of_two(&mut self, call: Binary, a: &Tree, b: &Tree) -> Result<Tree, Refusal> {
        let count = counted(call(self.n.into(), &a.0, &b.0, &mut self.tree, &mut self.work))?;
        Ok(self.made(count))
    }

    fn of_one(&mut self, call: Unary, a: &Tree) -> Result<Tree, Refusal> {
        let count = counted(call(self.n.into(), &a.0, &mut self.tree, &mut self.work))?;
        Ok(self.made(count))
    }

    fn made(&self, count: usize) -> Tree {
        Tree(self.tree[..count].to_vec())
    }
}
