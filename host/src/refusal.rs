//! Why a call was refused.

use std::error::Error;
use std::fmt::{self, Display, Formatter};

/// The cause of a refusal. The engine names each by its number.
#[derive(Clone, Copy, Debug, PartialEq, Eq, PartialOrd, Ord, Hash)]
#[repr(u32)]
#[non_exhaustive]
pub enum Refusal {
    Size = 1,
    Record = 2,
    Label = 3,
    Locked = 4,
    Already = 5,
    Absent = 6,
    Full = 7,
    NoneHeld = 8,
    Grammar = 9,
    Limits = 10,
    Tree = 11,
    Work = 12,
    List = 13,
    Frame = 14,
    Kind = 15,
    NotOpened = 16,
    Touched = 17,
    Withdrawn = 18,
    Tie = 19,
    Anchors = 20,
    NoneInUse = 21,
}

/// Every cause, by ascending number, with its meaning.
#[rustfmt::skip]
const CAUSES: &[(Refusal, &str)] = &[
    (Refusal::Size, "the number of records is outside 1 to 1,024"),
    (Refusal::Record, "a record is not below the number of records"),
    (Refusal::Label, "the label is above 25: it is no letter from a to z"),
    (Refusal::Locked, "an end of the link, or the record to withdraw, is locked"),
    (Refusal::Already, "the link is present, or the record is locked or withdrawn, already"),
    (Refusal::Absent, "the link is absent, the record is not locked, or the record to reinstate is in use"),
    (Refusal::Full, "4,096 links are present"),
    (Refusal::NoneHeld, "no edit is held that could be undone"),
    (Refusal::Grammar, "the expression is outside the grammar"),
    (Refusal::Limits, "the expression is over 256 bytes, 63 letters or 8 deep"),
    (Refusal::Tree, "the tree is not well formed"),
    (Refusal::Work, "the work is shorter than stated"),
    (Refusal::List, "the chain, the loop, the tree, the numbers, the records, the offsets or the pages are longer than the space for them"),
    (Refusal::Frame, "the frame is broken, or the bytes are not the pages of the expression"),
    (Refusal::Kind, "the kind is unknown"),
    (Refusal::NotOpened, "no register is opened: the words are not those of a register"),
    (Refusal::Touched, "a link touches the record to withdraw"),
    (Refusal::Withdrawn, "the record is withdrawn"),
    (Refusal::Tie, "a tie is outside −20,000 to 20,000, has its least above its most, or is beyond the 1,024th"),
    (Refusal::Anchors, "the anchors are out of order or repeated"),
    (Refusal::NoneInUse, "no record is in use"),
];

impl Refusal {
    /// The cause with this number.
    ///
    /// ```
    /// assert_eq!(dating::Refusal::of(4), Some(dating::Refusal::Locked));
    /// assert_eq!(dating::Refusal::of(0), None);
    /// ```
    #[must_use]
    pub fn of(number: u32) -> Option<Refusal> {
        CAUSES.iter().map(|&(cause, _)| cause).find(|cause| cause.number() == number)
    }

    /// The number by which the engine, its programs and the other languages know it.
    ///
    /// ```
    /// assert_eq!(dating::Refusal::Locked.number(), 4);
    /// ```
    #[must_use]
    pub fn number(self) -> u32 {
        self as u32
    }

    /// What the number means.
    ///
    /// ```
    /// assert_eq!(dating::Refusal::Full.meaning(), "4,096 links are present");
    /// assert_eq!(dating::Refusal::Full.to_string(), "refused 7: 4,096 links are present");
    /// ```
    #[must_use]
    pub fn meaning(self) -> &'static str {
        let found = CAUSES.iter().find(|(cause, _)| *cause == self);
        found.expect("every cause is in the table").1
    }
}

impl Display for Refusal {
    fn fmt(&self, f: &mut Formatter) -> fmt::Result {
        write!(f, "refused {}: {}", self.number(), self.meaning())
    }
}

impl Error for Refusal {}

#[cfg(test)]
mod tests {
    use super::*;

    #[test]
    fn numbers_and_causes_belong_together() {
        for &(cause, meaning) in CAUSES {
            assert_eq!((Refusal::of(cause.number()), cause.meaning()), (Some(cause), meaning));
        }
        assert!(CAUSES.is_sorted_by_key(|(cause, _)| cause.number()));
        assert_eq!((Refusal::of(0), Refusal::of(99), Refusal::of(u32::MAX)), (None, None, None));
        assert_eq!(Refusal::Withdrawn.to_string(), "refused 18: the record is withdrawn");
    }
}
