//! An interpreter of `docs/SCOPE.md`, written from its words alone; comments cite its sentences (S6.7). It shares no code and
//! no table with the engine: tests hold the engine's answers against those given here.
//!
//! | Module | Holds | Section |
//! |---|---|---|
//! | `book` | the plain book: sheets of links, locked and withdrawn records, the pile of earlier sheets | S2 The plain book |
//! | `expression` | the reader of expressions, with its refusals | S3 Expressions |
//! | `relation` | sets of pairs as rows of bits, and the set that an expression means | S3 Expressions |
//! | `chain` | the first chain between two records | S4 Chains |
//! | `rows` | what a pair question by rows of bits is lent | S18 Rows of bits |
//! | `tree` | k2-trees, well-formedness, the operations on trees | S5 Trees |
//! | `offsets` | offsets known within limits | S19 Offsets known within limits |
//! | `question` | pair and chain questions with all their refusals | S6 Causes and numbers |
//! | `preview` | pair questions on a copy where an edit was made | S12 Look before saving |
//! | `draft` | a list of edits made all or none | S22 Edits made all or none |
//! | `generations` | the longest run to each record, or the first loop | S15 Generations |
//! | `support` | sole support with all its refusals | S16 Sole support |
//! | `frame` | requests as frames, and frames read as requests | S7 The program |
//! | `program` | the program: frames in, lines out | S7 The program |
//! | `lines` | typed lines such as `add 0 a 1` to requests | – |
//! | `pages` | the printed page: its printer and its reader | S17 The printed page |
//! | `random` | random numbers, expressions and sessions, each the same for the same seed | – |
//!
//! Everything here is meant to be plainly right first, and fast enough for n up to 1,024 second.

pub mod book;
pub mod chain;
pub mod draft;
pub mod expression;
pub mod frame;
pub mod generations;
pub mod lines;
pub mod preview;
pub mod pages;
pub mod offsets;
pub mod program;
pub mod question;
pub mod random;
pub mod relation;
pub mod support;
pub mod rows;
pub mod tree;

/// The most records a register has.
pub const MAX_RECORDS: u32 = 1024;

/// Refuses n outside 1 to 1,024.
pub fn check_size(n: u32) -> Result<(), Refusal> {
    if (1..=MAX_RECORDS).contains(&n) {
        Ok(())
    } else {
        Err(Refusal::Size)
    }
}

/// A cause of refusal; its number is that of the table in S6.3.
#[derive(Clone, Copy, Debug, PartialEq, Eq, PartialOrd, Ord)]
pub enum Refusal {
    /// n outside 1 to 1,024, or above 64 in the program
    Size = 1,
    /// a record not below n
    Record = 2,
    /// a label above 25
    Label = 3,
    /// add or remove where an end is locked; withdrawing a locked record
    Locked = 4,
    /// the link is present, or the record locked or withdrawn, already
    Already = 5,
    /// the link is absent, or the record not locked; reinstating a record in use
    Absent = 6,
    /// 4,096 links are present at an add
    Full = 7,
    /// undo with no edit held
    NoneHeld = 8,
    /// the expression is outside the grammar
    Grammar = 9,
    /// the expression is over 256 bytes, 63 letters or 8 deep
    TooLong = 10,
    /// a lent tree is not well formed
    Tree = 11,
    /// the lent work is shorter than stated
    Work = 12,
    /// the chain, the loop, the tree or the numbers are longer than their list; a space cannot hold every page, or a list every pair that pages
    /// show; the list of new numbers is shorter than the old n
    List = 13,
    /// the frame is broken; bytes that are not the pages of the expression and some list
    Frame = 14,
    /// the kind is unknown
    Kind = 15,
    /// no register is opened
    NotOpened = 16,
    /// withdrawing a record that a link touches
    Touched = 17,
    /// a withdrawn record named in add, remove, lock or unlock
    Withdrawn = 18,
    /// closing up with no record in use
    NoneInUse = 21,
    /// anchors out of order or repeated
    Anchors = 20,
    Tie = 19,
}

impl Refusal {
    pub fn number(self) -> u8 {
        self as u8
    }
}

/// The lengths of what a caller lends to a question or a tree operation: work in 64-bit words, and the list for the
/// answer in its own words.
#[derive(Clone, Copy, Debug)]
pub struct Space {
    pub work: usize,
    pub list: usize,
}

/// Words that a list gets: the first of an answer, as many as it takes, and how many the answer has in all.
#[derive(Clone, Debug, PartialEq, Eq)]
pub struct Listed<T> {
    pub total: usize,
    pub words: Vec<T>,
}

impl<T> From<Vec<T>> for Listed<T> {
    /// The whole answer.
    fn from(words: Vec<T>) -> Listed<T> {
        Listed { total: words.len(), words }
    }
}

impl Space {
    /// Space that is enough for every answer.
    pub const AMPLE: Space = Space { work: usize::MAX, list: usize::MAX };

    /// Refuses work shorter than `work`.
    pub fn work_at_least(self, work: usize) -> Result<(), Refusal> {
        if self.work < work {
            Err(Refusal::Work)
        } else {
            Ok(())
        }
    }

    /// Gives the first words of an answer that need not fit.
    pub fn first<T>(self, mut answer: Vec<T>) -> Listed<T> {
        let total = answer.len();
        answer.truncate(self.list);
        Listed { total, words: answer }
    }

    /// Gives the answer, or refuses one that is longer than the list.
    pub fn listed<T>(self, answer: Vec<T>) -> Result<Vec<T>, Refusal> {
        if answer.len() > self.list {
            Err(Refusal::List)
        } else {
            Ok(answer)
        }
    }
}
