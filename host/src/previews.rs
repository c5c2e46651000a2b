//! Previews: what an edit would do to an answer, before it is made.

use crate::calls::{self, counted};
use crate::{Edit, Pairs, Refusal, Register};

impl Register {
    /// The pairs that the expression would join if the edit were made, by the faster engine. It is not made: the register stays as it is. An edit that
    /// would be refused gives its cause, before any of the question's. A [`draft`](Register::draft) previews several edits.
    ///
    /// ```
    /// use dating::{Edit, Link, Refusal};
    /// # let mut register = dating::Register::fresh(3)?;
    /// register.add(0, 'a', 1)?;
    /// let link = Link { from: 1, letter: 'a', to: 2 };
    /// let pairs = register.preview(&Edit::Add(link), "a+")?;
    /// assert_eq!(pairs.collect::<Vec<_>>(), [(0, 1), (0, 2), (1, 2)]);
    /// assert_eq!(register.preview(&Edit::Undo, "a+")?.total(), 0);
    /// assert_eq!(register.preview(&Edit::Remove(link), "a+)").err(), Some(Refusal::Absent));
    /// assert_eq!(register.pairs("a+")?.collect::<Vec<_>>(), [(0, 1)]);
    /// # Ok::<(), dating::Refusal>(())
    /// ```
    pub fn preview(&self, edit: &Edit, expression: impl AsRef<[u8]>) -> Result<Pairs<'static>, Refusal> {
        let mut copy = self.clone();
        copy.apply(edit)?;
        copy.pairs(expression)
    }

    /// The same by the engine on k2-trees in lent space, and with no copy of the register: work of [`tree_work`](crate::tree_work) words, and a list as
    /// [`pairs_in`](Register::pairs_in) takes it.
    ///
    /// ```
    /// # let register = dating::Register::fresh(2)?;
    /// let link = dating::Link { from: 0, letter: 'a', to: 1 };
    /// let (mut work, mut list) = (vec![0; dating::tree_work(2)], [0; 4]);
    /// let pairs = register.preview_in(&dating::Edit::Add(link), "a", &mut work, &mut list)?;
    /// assert_eq!(pairs.collect::<Vec<_>>(), [(0, 1)]);
    /// # Ok::<(), dating::Refusal>(())
    /// ```
    pub fn preview_in<'a>(
        &self,
        edit: &Edit,
        expression: impl AsRef<[u8]>,
        work: &mut [u64],
        list: &'a mut [u32],
    ) -> Result<Pairs<'a>, Refusal> {
        let (kind, from, label, to) = edit.parts();
        let total = counted(calls::preview(self.words(), kind, from, label, to, expression.as_ref(), work, list))?;
        Ok(Pairs::new(list, total))
    }
}
