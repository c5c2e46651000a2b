//! The plain register: a sorted list of links, each record's steps, locks, and the latest 256 edits.

use crate::sheet::Link;
use crate::system::Refusal;
use std::collections::VecDeque;

/// The most links that a register holds.
pub const LINKS: usize = 4096;

#[derive(Clone, Copy, Debug, PartialEq, Eq)]
pub enum Edit {
    Add(Link),
    Remove(Link),
    Lock(u32),
    Unlock(u32),
}

#[derive(Clone, Debug, PartialEq, Eq)]
pub struct Register {
    /// (label × 1,024 + from) × 1,024 + to, ascending.
    links: Vec<u32>,
    /// For each record, the step words of the links that touch it, in both senses, ascending.
    steps: Vec<Vec<u32>>,
    locked: Vec<bool>,
    held: VecDeque<Edit>,
}

impl Register {
    pub fn fresh(n: u32) -> Result<Register, Refusal> {
        if !(1..=1024).contains(&n) {
            return Err(1);
        }
        let n = n as usize;
        Ok(Register { links: Vec::new(), steps: vec![Vec::new(); n], locked: vec![false; n], held: VecDeque::new() })
    }

    pub fn n(&self) -> usize {
        self.locked.len()
    }

    /// From and to of the links with this label.
    pub fn labelled(&self, label: u32) -> impl Iterator<Item = (usize, usize)> + '_ {
        let start = self.links.partition_point(|link| link >> 20 < label);
        let end = self.links.partition_point(|link| link >> 20 <= label);
        self.links[start..end].iter().map(|link| ((link >> 10 & 1023) as usize, (link & 1023) as usize))
    }

    pub fn steps(&self, record: usize) -> &[u32] {
        &self.steps[record]
    }

    pub fn edit(&mut self, edit: Edit) -> Result<(), Refusal> {
        if let Some(number) = self.cause(edit) {
            return Err(number);
        }
        self.apply(edit);
        if self.held.len() == 256 {
            self.held.pop_front();
        }
        self.held.push_back(edit);
        Ok(())
    }

    pub fn undo(&mut self) -> Result<(), Refusal> {
        let edit = self.held.pop_back().ok_or(8u32)?;
        self.apply(match edit {
            Edit::Add(link) => Edit::Remove(link),
            Edit::Remove(link) => Edit::Add(link),
            Edit::Lock(record) => Edit::Unlock(record),
            Edit::Unlock(record) => Edit::Lock(record),
        });
        Ok(())
    }

    /// The first cause to refuse this edit.
    fn cause(&self, edit: Edit) -> Option<Refusal> {
        let outside = |record: u32| record as usize >= self.n();
        let locked = |record: u32| self.locked[record as usize];
        match edit {
            Edit::Add(link) | Edit::Remove(link) => {
                let present = || self.links.binary_search(&packed(link)).is_ok();
                let adds = matches!(edit, Edit::Add(_));
                if outside(link.from) || outside(link.to) {
                    Some(2)
                } else if link.label > 25 {
                    Some(3)
                } else if locked(link.from) || locked(link.to) {
                    Some(4)
                } else if adds == present() {
                    Some(if adds { 5 } else { 6 })
                } else {
                    (adds && self.links.len() == LINKS).then_some(7)
                }
            }
            Edit::Lock(record) | Edit::Unlock(record) if outside(record) => Some(2),
            Edit::Lock(record) => locked(record).then_some(5),
            Edit::Unlock(record) => (!locked(record)).then_some(6),
        }
    }

    fn apply(&mut self, edit: Edit) {
        match edit {
            Edit::Add(link) => self.each_place(link, insert),
            Edit::Remove(link) => self.each_place(link, remove),
            Edit::Lock(record) => self.locked[record as usize] = true,
            Edit::Unlock(record) => self.locked[record as usize] = false,
        }
    }

    /// Puts a link into the three lists that hold it, or takes it out.
    fn each_place(&mut self, link: Link, put: fn(&mut Vec<u32>, u32)) {
        put(&mut self.links, packed(link));
        put(&mut self.steps[link.from as usize], link.label * 2 * 1024 + link.to);
        put(&mut self.steps[link.to as usize], (link.label * 2 + 1) * 1024 + link.from);
    }
}

fn packed(link: Link) -> u32 {
    (link.label * 1024 + link.from) * 1024 + link.to
}

fn insert(list: &mut Vec<u32>, word: u32) {
    let at = list.partition_point(|&other| other < word);
    list.insert(at, word);
}

fn remove(list: &mut Vec<u32>, word: u32) {
    let at = list.partition_point(|&other| other < word);
    list.remove(at);
}

#[cfg(test)]
mod tests {
    use super::*;
    use Edit::*;

    fn link(from: u32, label: u32, to: u32) -> Link {
        Link { from, label, to }
    }

    #[test]
    fn causes_come_in_order() {
        assert_eq!(Register::fresh(0).map(|_| ()), Err(1));
        assert_eq!(Register::fresh(1025).map(|_| ()), Err(1));
        let mut register = Register::fresh(4).unwrap();
        for edit in [Add(link(0, 0, 1)), Add(link(3, 25, 3)), Lock(1)] {
            assert_eq!(register.edit(edit), Ok(()));
        }
        let before = register.clone();
        for (edit, number) in [
            (Add(link(4, 26, 1)), 2),
            (Remove(link(1, 0, 4)), 2),
            (Add(link(1, 26, 1)), 3),
            (Add(link(0, 0, 1)), 4),
            (Remove(link(1, 0, 2)), 4),
            (Add(link(3, 25, 3)), 5),
            (Remove(link(3, 24, 3)), 6),
            (Lock(4), 2),
            (Unlock(4), 2),
            (Lock(1), 5),
            (Unlock(0), 6),
        ] {
            assert_eq!(register.edit(edit), Err(number), "{edit:?}");
        }
        assert_eq!(register, before);
    }

    #[test]
    fn at_most_4096_links() {
        let mut register = Register::fresh(64).unwrap();
        for at in 0..4096 {
            assert_eq!(register.edit(Add(link(at / 64, 0, at % 64))), Ok(()));
        }
        assert_eq!(register.edit(Add(link(0, 0, 0))), Err(5));
        assert_eq!(register.edit(Add(link(0, 1, 0))), Err(7));
        assert_eq!(register.edit(Remove(link(0, 0, 0))), Ok(()));
        assert_eq!(register.edit(Add(link(0, 1, 0))), Ok(()));
    }

    #[test]
    fn undo_takes_back_the_latest_256() {
        let mut register = Register::fresh(2).unwrap();
        assert_eq!(register.undo(), Err(8));
        register.edit(Add(link(0, 0, 1))).unwrap();
        let after_first = register.clone();
        for round in 0..64 {
            for edit in [Add(link(1, round % 26, 1)), Lock(1), Unlock(1), Remove(link(1, round % 26, 1))] {
                register.edit(edit).unwrap();
            }
        }
        for _ in 0..256 {
            assert_eq!(register.undo(), Ok(()));
        }
        assert_eq!(register.undo(), Err(8));
        assert_eq!((register.links, register.steps), (after_first.links, after_first.steps));
        assert_eq!(register.locked, [false, false]);
    }

    #[test]
    fn a_self_link_gives_a_step_in_each_sense() {
        let mut register = Register::fresh(3).unwrap();
        register.edit(Add(link(2, 1, 2))).unwrap();
        register.edit(Add(link(0, 0, 2))).unwrap();
        assert_eq!(register.steps(2), [1024, 2 * 1024 + 2, 3 * 1024 + 2]);
        assert_eq!(register.labelled(1).collect::<Vec<_>>(), [(2, 2)]);
        assert_eq!(register.labelled(2).count(), 0);
    }
}
