//! Edits by name, one by one or all or none.

use crate::calls;
use crate::register::label;
use crate::{Link, Refusal, Register};
use std::error::Error;
use std::fmt::{self, Display, Formatter};

/// An edit or undo, by name. As text, what the shell takes:
///
/// ```
/// use dating::{Edit, Link};
/// assert_eq!(Edit::Add(Link { from: 4, letter: 'o', to: 3 }).to_string(), "add 4 o 3");
/// assert_eq!((Edit::Withdraw(7).to_string(), Edit::Undo.to_string()), ("withdraw 7".to_string(), "undo".to_string()));
/// ```
#[derive(Clone, Copy, Debug, PartialEq, Eq, Hash)]
pub enum Edit {
    Add(Link),
    Remove(Link),
    Lock(u16),
    Unlock(u16),
    Withdraw(u16),
    Reinstate(u16),
    Undo,
}

impl Edit {
    /// Its kind, as the program's frames number it, and its arguments: from or the record, label, to.
    pub(crate) fn parts(&self) -> (u16, u16, u8, u16) {
        match *self {
            Edit::Add(link) => (2, link.from, label(link.letter), link.to),
            Edit::Remove(link) => (3, link.from, label(link.letter), link.to),
            Edit::Lock(record) => (4, record, 0, 0),
            Edit::Unlock(record) => (5, record, 0, 0),
            Edit::Undo => (6, 0, 0, 0),
            Edit::Withdraw(record) => (10, record, 0, 0),
            Edit::Reinstate(record) => (11, record, 0, 0),
        }
    }

    /// The same as a word of a history.
    fn word(&self) -> u64 {
        let (kind, from, label, to) = self.parts();
        u64::from(kind) << 40 | u64::from(from) << 24 | u64::from(label) << 16 | u64::from(to)
    }
}

impl Display for Edit {
    fn fmt(&self, f: &mut Formatter) -> fmt::Result {
        match self {
            Edit::Add(link) => write!(f, "add {link}"),
            Edit::Remove(link) => write!(f, "remove {link}"),
            Edit::Lock(record) => write!(f, "lock {record}"),
            Edit::Unlock(record) => write!(f, "unlock {record}"),
            Edit::Withdraw(record) => write!(f, "withdraw {record}"),
            Edit::Reinstate(record) => write!(f, "reinstate {record}"),
            Edit::Undo => write!(f, "undo"),
        }
    }
}

/// The first refusal of a list of edits, of which none is made then.
#[derive(Clone, Copy, Debug, PartialEq, Eq, Hash)]
pub struct RefusedAt {
    /// The place of the edit in the list, from 0.
    pub place: usize,
    pub refusal: Refusal,
}

impl Display for RefusedAt {
    fn fmt(&self, f: &mut Formatter) -> fmt::Result {
        write!(f, "edit {} of the list: {}", self.place + 1, self.refusal)
    }
}

impl Error for RefusedAt {
    fn source(&self) -> Option<&(dyn Error + 'static)> {
        Some(&self.refusal)
    }
}

impl From<RefusedAt> for Refusal {
    fn from(at: RefusedAt) -> Refusal {
        at.refusal
    }
}

impl Register {
    /// Makes an edit, or undoes.
    ///
    /// ```
    /// use dating::{Edit, Refusal};
    /// # let mut register = dating::Register::fresh(3)?;
    /// register.apply(&Edit::Lock(2))?;
    /// assert_eq!(register.apply(&Edit::Withdraw(2)), Err(Refusal::Locked));
    /// register.apply(&Edit::Undo)?;
    /// assert!(!register.is_locked(2));
    /// # Ok::<(), dating::Refusal>(())
    /// ```
    pub fn apply(&mut self, edit: &Edit) -> Result<(), Refusal> {
        Ok(self.apply_all(std::slice::from_ref(edit))?)
    }

    /// Makes every edit of a list in turn, or none of them. If one is refused, nothing is changed, and the place of the first that is comes with its
    /// cause.
    ///
    /// ```
    /// use dating::{Edit, Link, Refusal, RefusedAt};
    /// # let mut register = dating::Register::fresh(3)?;
    /// register.lock(2)?;
    /// let link = Edit::Add(Link { from: 1, letter: 'a', to: 2 });
    /// let refused = register.apply_all(&[Edit::Unlock(2), link, link, Edit::Lock(2)]).unwrap_err();
    /// assert_eq!(refused, RefusedAt { place: 2, refusal: Refusal::Already });
    /// assert!(refused.to_string().starts_with("edit 3 of the list: refused 5: "));
    /// assert!(register.is_locked(2));
    /// register.apply_all(&[Edit::Unlock(2), link, Edit::Lock(2)])?;
    /// assert_eq!(register.pairs("a")?.collect::<Vec<_>>(), [(1, 2)]);
    /// # Ok::<(), dating::Refusal>(())
    /// ```
    pub fn apply_all(&mut self, edits: &[Edit]) -> Result<(), RefusedAt> {
        let words: Vec<u64> = edits.iter().map(Edit::word).collect();
        calls::applied(calls::apply_all(self.words_mut(), &words)).map_err(|(place, refusal)| RefusedAt { place, refusal })
    }
}
