//! Pair and chain questions. Refusals in their order: 2, 10 for bytes, 9, 10 for letters and depth, 12, and 13 for a chain (S6.7).

use crate::book::Book;
use crate::relation::Relation;
use crate::{chain, expression, tree, Listed, Refusal, Space};

/// The pair words of an expression, ascending, as many as the list takes.
pub fn pairs(book: &Book, text: &[u8], space: Space) -> Result<Listed<u32>, Refusal> {
    let expression = expression::read(text)?;
    space.work_at_least(tree::work(book.n()))?;
    Ok(space.first(Relation::meant(book.n(), book.sheet(), &expression).pair_words()))
}

/// The step words of the first chain, or none.
pub fn chain(book: &Book, from: u32, to: u32, text: &[u8], space: Space) -> Result<Option<Vec<u32>>, Refusal> {
    if from >= book.n() || to >= book.n() {
        return Err(Refusal::Record);
    }
    let expression = expression::read(text)?;
    space.work_at_least(64 * book.n() as usize)?;
    match chain::first(book.n(), book.sheet(), &expression, from, to) {
        Some(steps) => space.listed(steps).map(Some),
        None => Ok(None),
    }
}
