//! What a system under test has to offer, and the systems that are compared.

use crate::sheet::{Link, Question};
#[cfg(feature = "graphblas")]
use crate::graphblas;
use crate::{engine, plain};

/// The number of a refusal, from the table of causes (`docs/SCOPE.md`, S6).
pub type Refusal = u32;

/// A register with its links in place. Questions change nothing in it.
pub trait System {
    /// Writes the pairs of the expression, from × 1,024 + to, ascending; gives their number.
    fn pairs(&mut self, expression: &[u8], list: &mut [u32]) -> Result<usize, Refusal>;

    /// Writes the step words of the first chain and gives their number, or none.
    fn chain(&mut self, from: u32, to: u32, expression: &[u8], list: &mut [u32]) -> Reply;

    fn add(&mut self, link: Link) -> Result<(), Refusal>;

    fn remove(&mut self, link: Link) -> Result<(), Refusal>;
}

/// Makes a register of n records with these links.
pub type Load = fn(u32, &[Link]) -> Result<Box<dyn System>, Refusal>;

/// A system by its name in result lines.
#[derive(Clone, Copy)]
pub struct Peer {
    pub name: &'static str,
    pub load: Load,
}

/// The systems that are compared, the baseline first; the last only where its library is installed.
pub const PEERS: &[Peer] = &[
    plain::PEER,
    engine::PEER,
    engine::BY_ROWS,
    #[cfg(feature = "graphblas")]
    graphblas::PEER,
];

/// The length of a list in which every answer has room: 1,024 × 1,024 pairs; the longest chain has 63 × 1,024 steps.
pub const LIST: usize = 1 << 20;

/// The number of words in the list, or none if there is no chain. An edit's words are the answers to its add and to its remove: 0 for
/// accepted, or the refusal.
pub type Reply = Result<Option<usize>, Refusal>;

pub fn ask(system: &mut dyn System, question: &Question, list: &mut [u32]) -> Reply {
    match question {
        Question::Pairs { expression, .. } => system.pairs(expression.as_bytes(), list).map(Some),
        Question::Chain { from, to, expression, .. } => system.chain(*from, *to, expression.as_bytes(), list),
        Question::Edit(link) => {
            list[0] = system.add(*link).err().unwrap_or(0);
            list[1] = system.remove(*link).err().unwrap_or(0);
            Ok(Some(2))
        }
    }
}
