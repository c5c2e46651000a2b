//! Closing up the numbers.

use crate::calls::{self, NO_NUMBER, done};
use crate::{Refusal, Register};

impl Register {
    /// Numbers the records in use from 0 in their old order, and lowers the number of records to their count; links, locks and totals follow. The
    /// new number of each old one, none for a withdrawn record. Held edits are dropped, also if no record was withdrawn.
    ///
    /// ```
    /// # let mut register = dating::Register::fresh(4)?;
    /// register.add(1, 'a', 3)?;
    /// register.withdraw(0)?;
    /// register.withdraw(2)?;
    /// assert_eq!(register.close_up()?, [None, Some(0), None, Some(1)]);
    /// assert_eq!((register.size(), register.is_withdrawn(0)), (2, false));
    /// assert_eq!(register.pairs("a")?.collect::<Vec<_>>(), [(0, 1)]);
    /// assert_eq!(register.undo(), Err(dating::Refusal::NoneHeld));
    /// # Ok::<(), dating::Refusal>(())
    /// ```
    pub fn close_up(&mut self) -> Result<Vec<Option<u16>>, Refusal> {
        let mut numbers = vec![0; self.size().into()];
        done(calls::close_up(self.words_mut(), &mut numbers))?;
        Ok(numbers.into_iter().map(|number| (number != NO_NUMBER).then_some(number)).collect())
    }
}
