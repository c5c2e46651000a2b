//! Sole support: what would fall with a core.

use crate::calls::{self, counted};
use crate::space::support_work;
use crate::{Records, Refusal, Register};

impl Register {
    /// The records but the core that have a chain to some anchor, and none to any once the links that touch the core are gone. Locks play no
    /// part, and the register is unchanged. The anchors ascend, each once.
    ///
    /// ```
    /// # let mut register = dating::Register::fresh(5)?;
    /// register.add(1, 'o', 0)?;
    /// register.add(2, 'o', 1)?;
    /// register.add(3, 'o', 1)?;
    /// register.add(3, 'o', 4)?;
    /// register.add(4, 'o', 0)?;
    /// assert_eq!(register.sole_support(1, "o+", &[0])?.collect::<Vec<_>>(), [2]);
    /// assert_eq!(register.sole_support(1, "o+", &[4, 0]).err(), Some(dating::Refusal::Anchors));
    /// # Ok::<(), dating::Refusal>(())
    /// ```
    pub fn sole_support(&self, core: u16, expression: impl AsRef<[u8]>, anchors: &[u16]) -> Result<Records<'static>, Refusal> {
        self.in_space(support_work(self.size()), self.size().into(), |words, work, list| {
            let total = counted(calls::sole_support(words, core, expression.as_ref(), anchors, work, list))?;
            Ok(Records::new(list, total).own())
        })
    }

    /// The same in lent space: work of [`support_work`] words, and a list, which is left as it was with a refusal.
    ///
    /// ```
    /// # let mut register = dating::Register::fresh(3)?;
    /// register.add(1, 'o', 0)?;
    /// register.add(2, 'o', 1)?;
    /// let (mut work, mut list) = (vec![0; dating::support_work(3)], [0; 1]);
    /// assert_eq!(register.sole_support_in(1, "o+", &[0], &mut work, &mut list)?.collect::<Vec<_>>(), [2]);
    /// assert_eq!(register.sole_support_in(1, "o+", &[0], &mut work, &mut []).err(), Some(dating::Refusal::List));
    /// # Ok::<(), dating::Refusal>(())
    /// ```
    pub fn sole_support_in<'a>(
        &self,
        core: u16,
        expression: impl AsRef<[u8]>,
        anchors: &[u16],
        work: &mut [u64],
        list: &'a mut [u32],
    ) -> Result<Records<'a>, Refusal> {
        let total = counted(calls::sole_support(&self.words, core, expression.as_ref(), anchors, work, list))?;
        Ok(Records::new(list, total))
    }
}
