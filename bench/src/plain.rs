//! The baseline: pairs by bit rows, chains by breadth-first search, edits on sorted lists.

use crate::chains;
use crate::expression::{self, Expression};
use crate::register::{Edit, Register};
use crate::rows::Rows;
use crate::sheet::Link;
use crate::system::{Peer, Refusal, System};

pub const PEER: Peer = Peer { name: "plain", load };

fn load(n: u32, links: &[Link]) -> Result<Box<dyn System>, Refusal> {
    let mut register = Register::fresh(n)?;
    links.iter().try_for_each(|&link| register.add(link))?;
    Ok(Box::new(register))
}

impl System for Register {
    fn pairs(&mut self, text: &[u8], list: &mut [u32]) -> Result<usize, Refusal> {
        let pairs = relation(self, &expression::read(text)?);
        let list = list.get_mut(..pairs.count()).ok_or(13u32)?;
        let mut written = 0;
        pairs.pairs().for_each(|(from, to)| {
            list[written] = (from * 1024 + to) as u32;
            written += 1;
        });
        Ok(written)
    }

    fn chain(&mut self, from: u32, to: u32, text: &[u8], list: &mut [u32]) -> Result<Option<usize>, Refusal> {
        if from.max(to) as usize >= self.n() {
            return Err(2);
        }
        let Some(steps) = chains::first(self, from, to, &expression::read(text)?) else {
            return Ok(None);
        };
        list.get_mut(..steps.len()).ok_or(13u32)?.copy_from_slice(&steps);
        Ok(Some(steps.len()))
    }

    fn add(&mut self, link: Link) -> Result<(), Refusal> {
        self.edit(Edit::Add(link))
    }

    fn remove(&mut self, link: Link) -> Result<(), Refusal> {
        self.edit(Edit::Remove(link))
    }
}

/// The pairs that an expression means.
fn relation(register: &Register, expression: &Expression) -> Rows {
    let of = |part: &Expression| relation(register, part);
    match expression {
        Expression::Letter(label) => {
            let mut rows = Rows::empty(register.n());
            register.labelled(*label).for_each(|(from, to)| rows.insert(from, to));
            rows
        }
        Expression::NoneOf(members) => {
            let mut rows = Rows::empty(register.n());
            for letter in members.others() {
                let links = register.labelled(letter / 2);
                if letter % 2 == 0 {
                    links.for_each(|(from, to)| rows.insert(from, to));
                } else {
                    links.for_each(|(from, to)| rows.insert(to, from));
                }
            }
            rows
        }
        Expression::Inverse(inner) => of(inner).transpose(),
        Expression::Alternative(left, right) => of(left).union(&of(right)),
        Expression::Sequence(left, right) => of(left).product(&of(right)),
        Expression::Star(inner) => of(inner).closure().with_identity(),
        Expression::Plus(inner) => of(inner).closure(),
        Expression::Optional(inner) => of(inner).with_identity(),
    }
}
