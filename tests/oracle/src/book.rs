//! The plain book: a sheet of links, locked records and withdrawn ones, and a pile of earlier sheets.

use crate::{check_size, Refusal};
use std::collections::{BTreeSet, VecDeque};

/// Labels are 0 to 25, written a to z.
pub const LABELS: u32 = 26;
/// The most links present at once.
pub const MAX_LINKS: usize = 4096;
/// The most edits held for undo.
pub const MAX_HELD: usize = 256;

#[derive(Clone, Copy, Debug, PartialEq, Eq, PartialOrd, Ord)]
pub struct Link {
    pub from: u32,
    pub label: u32,
    pub to: u32,
}

/// A set of links, a set of locked records and a set of withdrawn ones.
#[derive(Clone, Debug, Default, PartialEq, Eq)]
pub struct Sheet {
    pub links: BTreeSet<Link>,
    pub locked: BTreeSet<u32>,
    pub withdrawn: BTreeSet<u32>,
}

/// A call that changes the register, with any arguments.
#[derive(Clone, Copy, Debug, PartialEq, Eq)]
pub enum Call {
    Add(Link),
    Remove(Link),
    Lock(u32),
    Unlock(u32),
    Withdraw(u32),
    Reinstate(u32),
    Undo,
}

#[derive(Clone, Debug)]
pub struct Book {
    n: u32,
    sheet: Sheet,
    pile: VecDeque<Sheet>,
}

impl Book {
    /// A fresh register: no links, no locks, every record in use, nothing held.
    pub fn fresh(n: u32) -> Result<Book, Refusal> {
        check_size(n)?;
        Ok(Book { n, sheet: Sheet::default(), pile: VecDeque::new() })
    }

    pub fn n(&self) -> u32 {
        self.n
    }

    pub fn sheet(&self) -> &Sheet {
        &self.sheet
    }

    /// How many of the links present have this label; counted each time.
    pub fn total(&self, label: u32) -> Result<usize, Refusal> {
        if label >= LABELS {
            return Err(Refusal::Label);
        }
        Ok(self.sheet.links.iter().filter(|link| link.label == label).count())
    }

    /// The total of each label, from 0 on.
    pub fn totals(&self) -> Vec<u32> {
        (0..LABELS).map(|label| self.sheet.links.iter().filter(|link| link.label == label).count() as u32).collect()
    }

    /// The mark of each record, from 0 on: 0 free, 1 locked, 2 withdrawn.
    pub fn marks(&self) -> Vec<u32> {
        let mark = |record| u32::from(self.sheet.locked.contains(&record)) + 2 * u32::from(self.sheet.withdrawn.contains(&record));
        (0..self.n).map(mark).collect()
    }

    /// The number of edits that undo can take back.
    pub fn held(&self) -> usize {
        self.pile.len()
    }

    /// Does an edit or an undo. A refused call changes nothing.
    pub fn call(&mut self, call: Call) -> Result<(), Refusal> {
        if call == Call::Undo {
            self.sheet = self.pile.pop_back().ok_or(Refusal::NoneHeld)?;
            return Ok(());
        }
        if let Some(cause) = self.first_cause(call) {
            return Err(cause);
        }
        self.pile.push_back(self.sheet.clone());
        if self.pile.len() > MAX_HELD {
            self.pile.pop_front();
        }
        match call {
            Call::Add(link) => self.sheet.links.insert(link),
            Call::Remove(link) => self.sheet.links.remove(&link),
            Call::Lock(record) => self.sheet.locked.insert(record),
            Call::Unlock(record) => self.sheet.locked.remove(&record),
            Call::Withdraw(record) => self.sheet.withdrawn.insert(record),
            Call::Reinstate(record) => self.sheet.withdrawn.remove(&record),
            Call::Undo => unreachable!("undo is done above"),
        };
        Ok(())
    }

    /// Closes up the numbers with a list of `room` words (S14): the records in use are numbered from 0 in their old order, and what was held is
    /// dropped. The new number of each old one, none for a withdrawn record.
    pub fn close_up(&mut self, room: usize) -> Result<Vec<Option<u32>>, Refusal> {
        let kept: Vec<u32> = (0..self.n).filter(|record| !self.sheet.withdrawn.contains(record)).collect();
        if kept.is_empty() {
            return Err(Refusal::NoneInUse);
        }
        if room < self.n as usize {
            return Err(Refusal::List);
        }
        let numbers: Vec<Option<u32>> =
            (0..self.n).map(|old| kept.iter().position(|&record| record == old).map(|at| at as u32)).collect();
        let new = |old: u32| numbers[old as usize].expect("a record with a link or a lock is in use");
        let Sheet { links, locked, .. } = &self.sheet;
        let links =
            links.iter().map(|link| Link { from: new(link.from), label: link.label, to: new(link.to) }).collect();
        let locked = locked.iter().map(|&record| new(record)).collect();
        self.sheet = Sheet { links, locked, withdrawn: BTreeSet::new() };
        self.n = kept.len() as u32;
        self.pile.clear();
        Ok(numbers)
    }

    /// The first cause, in the order for edits (S6.6), to refuse an edit.
    pub fn first_cause(&self, edit: Call) -> Option<Refusal> {
        let Sheet { links, locked, withdrawn } = &self.sheet;
        let (records, label) = match edit {
            Call::Add(link) | Call::Remove(link) => (vec![link.from, link.to], Some(link.label)),
            Call::Lock(record) | Call::Unlock(record) => (vec![record], None),
            Call::Withdraw(record) | Call::Reinstate(record) => (vec![record], None),
            Call::Undo => (vec![], None),
        };
        let withdraws = matches!(edit, Call::Withdraw(_));
        let about_use = withdraws || matches!(edit, Call::Reinstate(_));
        let causes = [
            (Refusal::Record, records.iter().any(|&record| record >= self.n)),
            (Refusal::Withdrawn, !about_use && records.iter().any(|record| withdrawn.contains(record))),
            (Refusal::Label, label.is_some_and(|label| label >= LABELS)),
            (Refusal::Locked, (label.is_some() || withdraws) && records.iter().any(|record| locked.contains(record))),
            (
                Refusal::Already,
                match edit {
                    Call::Add(link) => links.contains(&link),
                    Call::Lock(record) => locked.contains(&record),
                    Call::Withdraw(record) => withdrawn.contains(&record),
                    _ => false,
                },
            ),
            (
                Refusal::Absent,
                match edit {
                    Call::Remove(link) => !links.contains(&link),
                    Call::Unlock(record) => !locked.contains(&record),
                    Call::Reinstate(record) => !withdrawn.contains(&record),
                    _ => false,
                },
            ),
            (Refusal::Full, matches!(edit, Call::Add(_)) && links.len() >= MAX_LINKS),
            (
                Refusal::Touched,
                withdraws && links.iter().any(|link| records.contains(&link.from) || records.contains(&link.to)),
            ),
        ];
        causes.into_iter().find(|&(_, there)| there).map(|(cause, _)| cause)
    }
}
