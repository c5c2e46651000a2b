//! The exported calls over lent space, each held to what is promised over any contents: it keeps to what it was lent, a
//! refused call leaves state and list as they were, and words past an answer are not touched.

mod closing;
mod drafts;

use crate::lent::{Lender, Word};
use dating::calls;
use oracle::book::Call;
use oracle::tree::{Binary, Unary};
use oracle::{Listed, Space};

/// A number of words, no chain, or the number of a refusal.
#[derive(Clone, Copy, Debug, PartialEq, Eq)]
pub enum Told {
    Count(usize),
    NoChain,
    Refused(u32),
}

impl Told {
    fn of(answer: u64) -> Told {
        match answer.checked_sub(calls::REFUSED) {
            Some(number) => Told::Refused(u32::try_from(number).unwrap_or(u32::MAX)),
            None if answer == calls::NO_CHAIN => Told::NoChain,
            None => Told::Count(answer as usize),
        }
    }
}

/// What a call answered: the words with their number, none, or the number of a refusal.
pub type Answer<T> = Result<Option<Listed<T>>, u32>;

/// The longest list lent.
pub const LONGEST: usize = 1024 * 1024 + 64;
/// The bytes of every pair on pages.
const PAGES: usize = 12_973_998 + 64;
const TREE: usize = 21_846 + 64;
const WORK: usize = 32 * 21_846 + 64 * 1024 + 64;

pub struct Engine {
    state: Lender<u32>,
    text: Lender<u8>,
    anchors: Lender<u16>,
    work: Lender<u64>,
    list: Lender<u32>,
    pairs: Lender<u32>,
    first: Lender<u64>,
    second: Lender<u64>,
    tree: Lender<u64>,
    numbers: Lender<u16>,
    pages: Lender<u8>,
    /// What every list holds before a call is made of this, another number each time.
    filling: u64,
    pub calls: usize,
    /// What was not kept to, by any call.
    pub faults: Vec<String>,
}

impl Engine {
    pub fn new(heap: bool) -> Engine {
        fn lender<T: Word>(heap: bool, capacity: usize) -> Lender<T> {
            if heap {
                Lender::heap()
            } else {
                Lender::guarded(capacity)
            }
        }
        Engine {
            state: lender(heap, 8192),
            text: lender(heap, 4096),
            anchors: lender(heap, 4096),
            work: lender(heap, WORK),
            list: lender(heap, LONGEST),
            pairs: lender(heap, LONGEST),
            first: lender(heap, TREE),
            second: lender(heap, TREE),
            tree: lender(heap, TREE),
            numbers: lender(heap, 2048),
            pages: lender(heap, PAGES),
            filling: 0,
            calls: 0,
            faults: Vec::new(),
        }
    }

    fn fault(&mut self, holds: bool, what: &str) {
        if !holds {
            self.faults.push(what.into());
        }
    }

    fn intact(&mut self) {
        self.calls += 1;
        let narrow = self.state.intact() && self.list.intact() && self.pairs.intact();
        let short = self.text.intact() && self.numbers.intact() && self.anchors.intact() && self.pages.intact();
        let wide = [&self.work, &self.first, &self.second, &self.tree].into_iter().all(Lender::intact);
        self.fault(narrow && short && wide, "writes before what it was lent");
    }

    /// Changes the words of a register by a call on them. The answer is 0 or a number.
    fn changed(&mut self, words: &mut [u32], call: impl FnOnce(&mut [u32]) -> u32) -> u32 {
        let state = self.state.lend_words(words);
        let answer = call(state);
        let kept = state == words;
        let past = state.get(calls::STATE_WORDS..) == words.get(calls::STATE_WORDS..);
        words.copy_from_slice(state);
        self.intact();
        self.fault(past, "changes a state past the register's words");
        self.fault(answer <= 18 || answer == 21, &format!("answers an edit with {answer}"));
        self.fault(answer == 0 || kept, &format!("changes the register and answers {answer}"));
        answer
    }

    pub fn fresh(&mut self, n: u16, words: &mut [u32]) -> u32 {
        self.changed(words, |state| calls::fresh(n, state))
    }

    pub fn edit(&mut self, words: &mut [u32], call: Call) -> u32 {
        self.changed(words, |state| match call {
            Call::Add(link) => calls::add(state, link.from as u16, link.label as u8, link.to as u16),
            Call::Remove(link) => calls::remove(state, link.from as u16, link.label as u8, link.to as u16),
            Call::Lock(record) => calls::lock(state, record as u16),
            Call::Unlock(record) => calls::unlock(state, record as u16),
            Call::Withdraw(record) => calls::withdraw(state, record as u16),
            Call::Reinstate(record) => calls::reinstate(state, record as u16),
            Call::Undo => calls::undo(state),
        })
    }

    pub fn size(&mut self, words: &[u32]) -> u32 {
        let answer = calls::size(self.state.lend_words(words));
        self.intact();
        answer
    }

    pub fn locked(&mut self, words: &[u32], record: u16) -> u32 {
        let answer = calls::locked(self.state.lend_words(words), record);
        self.intact();
        self.fault(answer <= 1, &format!("answers with {answer} whether a record is locked"));
        answer
    }

    pub fn withdrawn(&mut self, words: &[u32], record: u16) -> u32 {
        let answer = calls::withdrawn(self.state.lend_words(words), record);
        self.intact();
        self.fault(answer <= 1, &format!("answers with {answer} whether a record is withdrawn"));
        answer
    }

    /// The total of a label, or the number of the refusal.
    pub fn total(&mut self, words: &[u32], label: u8) -> Result<u32, u32> {
        let state = self.state.lend_words(words);
        let answer = calls::total(state, label);
        let kept = state == words;
        self.intact();
        self.fault(kept, "changes a register of which a total is asked");
        match Told::of(answer) {
            Told::Count(count) => Ok(count as u32),
            Told::NoChain => {
                self.fault(false, "tells no chain for a total");
                Err(0)
            }
            Told::Refused(number) => Err(number),
        }
    }

    /// Asks for a list of so many words at most, and looks at what was made of it. Whether a total may be above it, the caller knows.
    fn listed<T: Word>(
        &mut self,
        list: fn(&mut Engine) -> &mut Lender<T>,
        length: usize,
        call: impl FnOnce(&mut Engine, &mut [T]) -> u64,
    ) -> Answer<T> {
        self.filling = self.filling.wrapping_add(0x9e37_79b9_7f4a_7c15);
        let filling = T::of(self.filling >> 20);
        // The list is taken out for the call, so that the other lenders can be lent from beside it.
        let mut lender = std::mem::replace(list(self), Lender::heap());
        let lent = lender.lend(length);
        lent.fill(filling);
        let told = Told::of(call(self, lent));
        let count = if let Told::Count(count) = told { count } else { 0 };
        let words = lent[..count.min(length)].to_vec();
        let past = lent.iter().skip(count).all(|&word| word == filling);
        *list(self) = lender;
        self.intact();
        self.fault(past, "touches words past its answer");
        match told {
            Told::Count(total) => Ok(Some(Listed { total, words })),
            Told::NoChain => Ok(None),
            Told::Refused(number) => {
                self.fault((1..=18).contains(&number) || number == 20, &format!("refuses with {number}"));
                Err(number)
            }
        }
    }

    /// Asks a register for a list.
    pub fn asked(
        &mut self,
        words: &[u32],
        text: &[u8],
        space: Space,
        call: impl FnOnce(&[u32], &[u8], &mut [u64], &mut [u32]) -> u64,
    ) -> Answer<u32> {
        let answer = self.listed(
            |engine| &mut engine.list,
            space.list,
            |engine, list| {
                let (state, lent) = (engine.state.lend_words(words), engine.text.lend_words(text));
                let answer = call(state, lent, engine.work.lend(space.work), list);
                let kept = state == words && lent == text;
                engine.fault(kept, "a question changes the register or the text");
                answer
            },
        );
        answer
    }

    pub fn links(&mut self, words: &[u32], list: usize) -> Answer<u32> {
        self.asked(words, b"", Space { work: 0, list }, |state, _, _, list| calls::links(state, list))
    }

    pub fn totals(&mut self, words: &[u32], list: usize) -> Answer<u32> {
        self.asked(words, b"", Space { work: 0, list }, |state, _, _, list| calls::totals(state, list))
    }

    pub fn marks(&mut self, words: &[u32], list: usize) -> Answer<u32> {
        self.asked(words, b"", Space { work: 0, list }, |state, _, _, list| calls::marks(state, list))
    }

    pub fn pairs(&mut self, words: &[u32], text: &[u8], space: Space) -> Answer<u32> {
        self.asked(words, text, space, calls::pairs)
    }

    pub fn pairs_by_rows(&mut self, words: &[u32], text: &[u8], space: Space) -> Answer<u32> {
        self.asked(words, text, space, calls::pairs_by_rows)
    }

    pub fn chain(&mut self, words: &[u32], from: u32, to: u32, text: &[u8], space: Space) -> Answer<u32> {
        let (from, to) = (from as u16, to as u16);
        self.asked(words, text, space, |state, text, work, list| calls::chain(state, from, to, text, work, list))
    }

    pub fn ends(&mut self, words: &[u32], from: u32, text: &[u8], list: usize) -> Answer<u32> {
        self.asked(words, text, Space { work: 0, list }, |state, text, _, list| calls::ends(state, from as u16, text, list))
    }

    pub fn starts(&mut self, words: &[u32], to: u32, text: &[u8], list: usize) -> Answer<u32> {
        self.asked(words, text, Space { work: 0, list }, |state, text, _, list| calls::starts(state, to as u16, text, list))
    }

    /// A preview of the edit of a kind with its arguments.
    pub fn preview(&mut self, words: &[u32], edit: (u16, u16, u8, u16), text: &[u8], space: Space) -> Answer<u32> {
        let (kind, from, label, to) = edit;
        self.asked(words, text, space, |state, text, work, list| {
            calls::preview(state, kind, from, label, to, text, work, list)
        })
    }

    pub fn sole_support(
        &mut self,
        words: &[u32],
        core: u32,
        text: &[u8],
        anchors: &[u16],
        space: Space,
    ) -> Answer<u32> {
        self.listed(
            |engine| &mut engine.list,
            space.list,
            |engine, list| {
                let (state, lent) = (engine.state.lend_words(words), engine.text.lend_words(text));
                let named = engine.anchors.lend_words(anchors);
                let answer = calls::sole_support(state, core as u16, lent, named, engine.work.lend(space.work), list);
                let kept = state == words && lent == text && named == anchors;
                engine.fault(kept, "sole support changes the register, the text or the anchors");
                answer
            },
        )
    }

    pub fn make(&mut self, n: usize, pairs: &[u32], space: Space) -> Answer<u64> {
        self.listed(
            |engine| &mut engine.tree,
            space.list,
            |engine, tree| calls::tree_make(n, engine.pairs.lend_words(pairs), tree, engine.work.lend(space.work)),
        )
    }

    pub fn list(&mut self, n: usize, tree: &[u64], space: Space) -> Answer<u32> {
        self.listed(
            |engine| &mut engine.list,
            space.list,
            |engine, list| calls::tree_list(n, engine.first.lend_words(tree), list, engine.work.lend(space.work)),
        )
    }

    pub fn binary(&mut self, operation: Binary, n: usize, a: &[u64], b: &[u64], space: Space) -> Answer<u64> {
        let call = |first: &[u64], second: &[u64], tree: &mut [u64], work: &mut [u64]| match operation {
            Binary::Union => calls::tree_union(n, first, second, tree, work),
            Binary::Intersection => calls::tree_intersection(n, first, second, tree, work),
            Binary::Difference => calls::tree_difference(n, first, second, tree, work),
            Binary::Product { left, right } => calls::tree_product(n, first, left, second, right, tree, work),
        };
        self.listed(
            |engine| &mut engine.tree,
            space.list,
            |engine, tree| {
                let (first, second) = (engine.first.lend_words(a), engine.second.lend_words(b));
                let answer = call(first, second, tree, engine.work.lend(space.work));
                let kept = first == a && second == b;
                engine.fault(kept, "changes a lent tree");
                answer
            },
        )
    }

    pub fn unary(&mut self, operation: Unary, n: usize, a: &[u64], space: Space) -> Answer<u64> {
        let call = match operation {
            Unary::Transpose => calls::tree_transpose,
            Unary::Closure => calls::tree_closure,
        };
        self.listed(
            |engine| &mut engine.tree,
            space.list,
            |engine, tree| {
                let first = engine.first.lend_words(a);
                let answer = call(n, first, tree, engine.work.lend(space.work));
                let kept = first == a;
                engine.fault(kept, "changes a lent tree");
                answer
            },
        )
    }

    /// The pages of a pair question's answer; the space takes so many bytes.
    pub fn pages(&mut self, words: &[u32], text: &[u8], space: Space) -> Answer<u8> {
        self.listed(
            |engine| &mut engine.pages,
            space.list,
            |engine, pages| {
                let (state, lent) = (engine.state.lend_words(words), engine.text.lend_words(text));
                let answer = calls::pages(state, lent, engine.work.lend(space.work), pages);
                let kept = state == words && lent == text;
                engine.fault(kept, "printing changes the register or the text");
                answer
            },
        )
    }

    /// The pairs that pages show.
    pub fn read_pages(&mut self, text: &[u8], pages: &[u8], list: usize) -> Answer<u32> {
        self.listed(
            |engine| &mut engine.list,
            list,
            |engine, list| {
                let (lent, bytes) = (engine.text.lend_words(text), engine.pages.lend_words(pages));
                let answer = calls::read_pages(lent, bytes, list);
                let kept = lent == text && bytes == pages;
                engine.fault(kept, "reading changes the text or the pages");
                answer
            },
        )
    }
}
