//! Edits that are not made yet.

use crate::{Edit, Refusal, RefusedAt, Register};
use std::ops::Deref;

/// A register as it would be with some edits made, which are made all or none at the end, on the register as it then is. It is asked as a register is;
/// thrown away, it has made nothing.
///
/// ```
/// use dating::{Edit, Link, Refusal};
/// # let mut register = dating::Register::fresh(3)?;
/// register.lock(2)?;
/// let link = Edit::Add(Link { from: 1, letter: 'a', to: 2 });
/// let mut draft = register.draft();
/// draft.apply(&Edit::Unlock(2))?;
/// draft.apply(&link)?;
/// assert_eq!((draft.pairs("a")?.total(), register.pairs("a")?.total()), (1, 0));
/// draft.make(&mut register)?;
/// assert_eq!(register.pairs("a")?.total(), 1);
///
/// let mut cancelled = register.draft();
/// cancelled.apply(&Edit::Lock(2))?;
/// drop(cancelled);
/// assert!(!register.is_locked(2));
/// # Ok::<(), Refusal>(())
/// ```
#[must_use = "a draft makes nothing until `make`"]
#[derive(Clone, Debug)]
pub struct Draft {
    before: Register,
    register: Register,
    edits: Vec<Edit>,
}

impl Register {
    /// A draft of edits on this register.
    ///
    /// ```
    /// # let register = dating::Register::fresh(3)?;
    /// let mut draft = register.draft();
    /// draft.apply(&dating::Edit::Lock(2))?;
    /// assert_eq!((draft.is_locked(2), register.is_locked(2)), (true, false));
    /// # Ok::<(), dating::Refusal>(())
    /// ```
    pub fn draft(&self) -> Draft {
        Draft { before: self.clone(), register: self.clone(), edits: Vec::new() }
    }
}

impl Draft {
    /// Takes an edit into the draft; one that would be refused is, and is not in the draft. [`Edit::Undo`] takes the draft's own latest edit out of it, never
    /// an edit of the register.
    ///
    /// ```
    /// use dating::{Edit, Refusal};
    /// # let mut register = dating::Register::fresh(3)?;
    /// register.lock(2)?;
    /// let mut draft = register.draft();
    /// assert_eq!(draft.apply(&Edit::Lock(2)), Err(Refusal::Already));
    /// draft.apply(&Edit::Lock(1))?;
    /// draft.apply(&Edit::Undo)?;
    /// assert_eq!(draft.apply(&Edit::Undo), Err(Refusal::NoneHeld));
    /// # Ok::<(), dating::Refusal>(())
    /// ```
    pub fn apply(&mut self, edit: &Edit) -> Result<(), Refusal> {
        if *edit != Edit::Undo {
            self.register.apply(edit)?;
            self.edits.push(*edit);
            return Ok(());
        }
        let (_, kept) = self.edits.split_last().ok_or(Refusal::NoneHeld)?;
        let mut register = self.before.clone();
        register.apply_all(kept)?;
        self.register = register;
        self.edits.pop();
        Ok(())
    }

    /// The edits of the draft, in order.
    ///
    /// ```
    /// use dating::Edit;
    /// # let register = dating::Register::fresh(3)?;
    /// let mut draft = register.draft();
    /// draft.apply(&Edit::Lock(2))?;
    /// assert_eq!(draft.edits(), [Edit::Lock(2)]);
    /// # Ok::<(), dating::Refusal>(())
    /// ```
    #[must_use]
    pub fn edits(&self) -> &[Edit] {
        &self.edits
    }

    /// Makes all edits of the draft on the register as it is now, or none of them: then the place of the first that is refused is told, and the draft is
    /// still there.
    ///
    /// ```
    /// use dating::{Edit, Refusal, RefusedAt};
    /// # let mut register = dating::Register::fresh(3)?;
    /// let mut draft = register.draft();
    /// draft.apply(&Edit::Lock(0))?;
    /// draft.apply(&Edit::Lock(2))?;
    /// register.withdraw(2)?; // by another person
    /// assert_eq!(draft.make(&mut register), Err(RefusedAt { place: 1, refusal: Refusal::Withdrawn }));
    /// assert!(!register.is_locked(0));
    /// # Ok::<(), dating::Refusal>(())
    /// ```
    pub fn make(&self, register: &mut Register) -> Result<(), RefusedAt> {
        register.apply_all(&self.edits)
    }
}

/// The register with the edits made.
impl Deref for Draft {
    type Target = Register;

    fn deref(&self) -> &Register {
        &self.register
    }
}
