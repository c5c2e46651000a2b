//! Pair questions by name of the engine that answers them.

use crate::calls::{self, counted};
use crate::space::{most_pairs, rows_work, tree_work};
use crate::{Pairs, Refusal, Register};

impl Register {
    /// The pairs of records that the expression joins, by the engine on rows of bits.
    ///
    /// ```
    /// # let mut register = dating::Register::fresh(3)?;
    /// register.add(0, 'a', 1)?;
    /// register.add(1, 'a', 2)?;
    /// let by_rows = register.pairs_by_rows("a+")?.collect::<Vec<_>>();
    /// assert_eq!(by_rows, [(0, 1), (0, 2), (1, 2)]);
    /// assert_eq!(by_rows, register.pairs_by_trees("a+")?.collect::<Vec<_>>());
    /// # Ok::<(), dating::Refusal>(())
    /// ```
    pub fn pairs_by_rows(&self, expression: impl AsRef<[u8]>) -> Result<Pairs<'static>, Refusal> {
        self.in_space(rows_work(self.size()), most_pairs(self.size()), |words, work, list| {
            let total = counted(calls::pairs_by_rows(words, expression.as_ref(), work, list))?;
            Ok(Pairs::new(list, total).own())
        })
    }

    /// The same by the engine on k2-trees.
    ///
    /// ```
    /// # let mut register = dating::Register::fresh(2)?;
    /// register.add(0, 'a', 1)?;
    /// assert_eq!(register.pairs_by_trees("^a")?.collect::<Vec<_>>(), [(1, 0)]);
    /// # Ok::<(), dating::Refusal>(())
    /// ```
    pub fn pairs_by_trees(&self, expression: impl AsRef<[u8]>) -> Result<Pairs<'static>, Refusal> {
        self.in_space(tree_work(self.size()), most_pairs(self.size()), |words, work, list| {
            let total = counted(calls::pairs(words, expression.as_ref(), work, list))?;
            Ok(Pairs::new(list, total).own())
        })
    }

    /// The pairs by rows in lent space: work of [`rows_work`] words, and a list as [`pairs_in`](Register::pairs_in) takes it.
    ///
    /// ```
    /// # let mut register = dating::Register::fresh(2)?;
    /// register.add(0, 'a', 1)?;
    /// let (mut work, mut list) = (vec![0; dating::rows_work(2)], [0; 4]);
    /// assert_eq!(register.pairs_by_rows_in("a|^a", &mut work, &mut list)?.collect::<Vec<_>>(), [(0, 1), (1, 0)]);
    /// # Ok::<(), dating::Refusal>(())
    /// ```
    pub fn pairs_by_rows_in<'a>(
        &self,
        expression: impl AsRef<[u8]>,
        work: &mut [u64],
        list: &'a mut [u32],
    ) -> Result<Pairs<'a>, Refusal> {
        let total = counted(calls::pairs_by_rows(&self.words, expression.as_ref(), work, list))?;
        Ok(Pairs::new(list, total))
    }
    /// The pairs by k2-trees in lent space: work of [`tree_work`] words, and a list as [`pairs_in`](Register::pairs_in) takes it.
    ///
    /// ```
    /// # let mut register = dating::Register::fresh(2)?;
    /// register.add(0, 'a', 1)?;
    /// let (mut work, mut list) = (vec![0; dating::tree_work(2)], [0; 4]);
    /// assert_eq!(register.pairs_by_trees_in("a|^a", &mut work, &mut list)?.collect::<Vec<_>>(), [(0, 1), (1, 0)]);
    /// # Ok::<(), dating::Refusal>(())
    /// ```
    pub fn pairs_by_trees_in<'a>(
        &self,
        expression: impl AsRef<[u8]>,
        work: &mut [u64],
        list: &'a mut [u32],
    ) -> Result<Pairs<'a>, Refusal> {
        let total = counted(calls::pairs(&self.words, expression.as_ref(), work, list))?;
        Ok(Pairs::new(list, total))
    }
}
