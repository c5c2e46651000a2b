//! The engine, in space lent by the caller: pair questions by trees, and by rows of bits. Edits and chain questions are the same in both.

use crate::sheet::Link;
use crate::system::{Peer, Refusal, Reply, System};
use dating::{chain_work, rows_work, tree_work, Register};

pub const PEER: Peer = Peer { name: "engine", load: |n, links| load(n, links, false) };
pub const BY_ROWS: Peer = Peer { name: "rows", load: |n, links| load(n, links, true) };

struct Engine {
    register: Register,
    work: Vec<u64>,
    by_rows: bool,
}

fn load(n: u32, links: &[Link], by_rows: bool) -> Result<Box<dyn System>, Refusal> {
    let n = record(n);
    let register = Register::fresh(n).map_err(number)?;
    let pairs_work = if by_rows { rows_work(n) } else { tree_work(n) };
    let mut engine = Engine { register, work: vec![0; pairs_work.max(chain_work(n))], by_rows };
    links.iter().try_for_each(|&link| engine.add(link))?;
    Ok(Box::new(engine))
}

impl System for Engine {
    fn pairs(&mut self, expression: &[u8], list: &mut [u32]) -> Result<usize, Refusal> {
        let pairs = match self.by_rows {
            true => self.register.pairs_by_rows_in(expression, &mut self.work, list),
            false => self.register.pairs_by_trees_in(expression, &mut self.work, list),
        };
        Ok(pairs.map_err(number)?.len())
    }

    fn chain(&mut self, from: u32, to: u32, expression: &[u8], list: &mut [u32]) -> Reply {
        let steps = self.register.chain_in(record(from), record(to), expression, &mut self.work, list).map_err(number)?;
        Ok(steps.map(|steps| steps.len()))
    }

    fn add(&mut self, link: Link) -> Result<(), Refusal> {
        self.register.add(record(link.from), letter(link.label), record(link.to)).map_err(number)
    }

    fn remove(&mut self, link: Link) -> Result<(), Refusal> {
        self.register.remove(record(link.from), letter(link.label), record(link.to)).map_err(number)
    }
}

fn number(refusal: dating::Refusal) -> Refusal {
    refusal.number()
}

/// A record, or a number of records; what is too large stays so.
fn record(number: u32) -> u16 {
    number.try_into().unwrap_or(u16::MAX)
}

fn letter(label: u32) -> char {
    char::from_u32(u32::from('a') + label).unwrap_or('?')
}
