//! Sole support (S16): which records lose every chain to the anchors when the links of one core are gone.

use crate::book::{Book, Sheet};
use crate::expression::{self, Expression};
use crate::relation::Relation;
use crate::{chain, tree, Refusal, Space};

/// The words of work: 32 × D + 64 × n (S16.4).
pub fn work(n: u32) -> usize {
    tree::work(n) + 64 * n as usize
}

/// The sheet with every link gone that touches the core; nothing else of it changes.
fn without(sheet: &Sheet, core: u32) -> Sheet {
    let mut rest = sheet.clone();
    rest.links.retain(|link| link.from != core && link.to != core);
    rest
}

/// The records but the core that reach some anchor, and none without the core's links.
fn falling(
    n: u32,
    core: u32,
    anchors: &[u32],
    before: impl Fn(u32, u32) -> bool,
    after: impl Fn(u32, u32) -> bool,
) -> Vec<u32> {
    let falls = |&x: &u32| {
        x != core && anchors.iter().any(|&anchor| before(x, anchor)) && !anchors.iter().any(|&anchor| after(x, anchor))
    };
    (0..n).filter(falls).collect()
}

/// Those that fall, or the first cause of S16.4 that does not hang on the space.
pub fn fallen(book: &Book, core: u32, text: &[u8], anchors: &[u32]) -> Result<Vec<u32>, Refusal> {
    let e = accepted(book, core, text, anchors)?;
    let n = book.n();
    let before = Relation::meant(n, book.sheet(), &e);
    let after = Relation::meant(n, &without(book.sheet(), core), &e);
    Ok(falling(n, core, anchors, |x, anchor| before.has(x, anchor), |x, anchor| after.has(x, anchor)))
}

/// The same by a chain question for each record and anchor, which is slow.
pub fn fallen_by_chains(book: &Book, core: u32, text: &[u8], anchors: &[u32]) -> Result<Vec<u32>, Refusal> {
    let e = accepted(book, core, text, anchors)?;
    let (n, rest) = (book.n(), without(book.sheet(), core));
    let has = |sheet: &Sheet, x, anchor| chain::first(n, sheet, &e, x, anchor).is_some();
    Ok(falling(n, core, anchors, |x, anchor| has(book.sheet(), x, anchor), |x, anchor| has(&rest, x, anchor)))
}

fn accepted(book: &Book, core: u32, text: &[u8], anchors: &[u32]) -> Result<Expression, Refusal> {
    if core >= book.n() || anchors.iter().any(|&anchor| anchor >= book.n()) {
        return Err(Refusal::Record);
    }
    if anchors.windows(2).any(|two| two[0] >= two[1]) {
        return Err(Refusal::Anchors);
    }
    expression::read(text)
}

/// What an answer becomes in such space.
pub fn within(n: u32, answer: &Result<Vec<u32>, Refusal>, space: Space) -> Result<Vec<u32>, Refusal> {
    let words = answer.clone()?;
    space.work_at_least(work(n))?;
    space.listed(words)
}
