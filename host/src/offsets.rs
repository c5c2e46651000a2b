//! Offsets known within limits.

use crate::calls::{self, told};
use crate::space::offsets_work;
use crate::{Refusal, Register};

/// A tie: the second record begins at least `least` and at most `most` rings after the first, each from −20,000 to 20,000.
#[derive(Clone, Copy, Debug, PartialEq, Eq)]
#[repr(C)]
pub struct Tie {
    pub first: u16,
    pub second: u16,
    pub least: i32,
    pub most: i32,
}

/// How many rings a record begins after the base.
#[derive(Clone, Copy, Debug, PartialEq, Eq)]
pub enum Offset {
    /// The narrowest limits that hold in every placing that meets all ties.
    Limits { least: i32, most: i32 },
    /// No tie joins the record to the base, directly or through others.
    Free,
}

/// The answer to asking for offsets.
#[must_use]
#[derive(Clone, Debug, PartialEq, Eq)]
pub enum Offsets {
    /// The offset of each record, in ascending order of record.
    Known(Vec<Offset>),
    /// No placing of whole years meets all ties.
    CannotHold,
}

impl Offset {
    /// Of a record's two words.
    fn of(words: &[i32]) -> Offset {
        match words {
            [1, 0] => Offset::Free,
            [least, most] => Offset::Limits { least: *least, most: *most },
            _ => unreachable!("two words to a record"),
        }
    }
}

impl Register {
    /// How many rings each record begins after the base, as far as ties tell; at most 1,024 of them.
    ///
    /// ```
    /// use dating::{Offset, Offsets, Register, Tie};
    ///
    /// let register = Register::fresh(3)?;
    /// let tie = Tie { first: 0, second: 1, least: 31, most: 38 };
    /// let Offsets::Known(offsets) = register.offsets(0, &[tie])? else { panic!("they can hold") };
    /// assert_eq!(offsets, [Offset::Limits { least: 0, most: 0 }, Offset::Limits { least: 31, most: 38 }, Offset::Free]);
    /// let back = Tie { first: 1, second: 0, least: 1, most: 5 };
    /// assert_eq!(register.offsets(2, &[tie, back])?, Offsets::CannotHold);
    /// # Ok::<(), dating::Refusal>(())
    /// ```
    pub fn offsets(&self, base: u16, ties: &[Tie]) -> Result<Offsets, Refusal> {
        let mut work = vec![0; offsets_work(self.size())];
        let mut list = vec![0; 2 * usize::from(self.size())];
        let words = told(calls::offsets(self.words(), base, ties, &mut work, &mut list))?;
        Ok(match words {
            Some(words) => Offsets::Known(list[..words].chunks(2).map(Offset::of).collect()),
            None => Offsets::CannotHold,
        })
    }
}
