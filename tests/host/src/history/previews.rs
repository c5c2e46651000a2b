//! Previews on random registers: the answer is the oracle's, and what the engine's own question gives on words where the edit was made. That neither the
//! state nor the text is changed, every question is held to (`engine`).

use super::{first_within, spaces, History};
use crate::run::{Run, Size};
use oracle::book::Call;
use oracle::{preview, tree};

/// Kinds that are none of an edit or undo, next to those that are.
const OTHER_KINDS: [u16; 14] = [0, 1, 7, 8, 9, 12, 13, 15, 255, 256, 258, 266, 4096, 65535];

/// How many previews follow the first, on an empty register; each is asked in up to eight spaces.
const PREVIEWS: usize = 4;

impl History<'_> {
    /// The kind and arguments of a call; those that the kind does not take are any.
    pub(super) fn arguments(&mut self, call: Call) -> (u16, u16, u8, u16) {
        let (from, label, to) = (self.random.word() as u16, self.random.word() as u8, self.random.word() as u16);
        match call {
            Call::Add(link) => (2, link.from as u16, link.label as u8, link.to as u16),
            Call::Remove(link) => (3, link.from as u16, link.label as u8, link.to as u16),
            Call::Lock(record) => (4, record as u16, label, to),
            Call::Unlock(record) => (5, record as u16, label, to),
            Call::Undo => (6, from, label, to),
            Call::Withdraw(record) => (10, record as u16, label, to),
            Call::Reinstate(record) => (11, record as u16, label, to),
        }
    }

    /// A preview of any edit or undo, or of a kind that is none.
    fn preview(&mut self) {
        let call = self.any_call();
        let mut edit = self.arguments(call);
        if self.random.chance(8) {
            edit.0 = self.random.pick(&OTHER_KINDS);
        }
        let text = self.text();
        let (kind, from, label, to) = edit;
        let meant = preview::call(kind, from.into(), label.into(), to.into());
        let expected = meant.and_then(|call| preview::pairs(&self.book, call, &text));
        let mut edited = self.words.clone();
        let number = meant.map_or(15, |call| self.run.engine.edit(&mut edited, call));
        let work = tree::work(self.n());
        for space in spaces(work, expected.as_ref().map_or(0, Vec::len)) {
            let shown = || format!("preview of {edit:?} and `{}` in {space:?}", String::from_utf8_lossy(&text));
            let answer = self.run.engine.preview(&self.words, edit, &text, space);
            self.run.same_of(shown, &answer, &first_within(&expected, work, space));
            let after = if number == 0 { self.run.engine.pairs(&edited, &text, space) } else { Err(number) };
            self.run.same_of(shown, &answer, &after);
            self.run.counts.pairs += 1;
        }
    }
}

/// A register edited, with previews between the edits.
pub fn previews(run: &mut Run, seed: u64, size: Size) {
    let mut history = History::fresh(run, seed, size);
    history.preview();
    let links = history.random.below(3 * history.n() as usize + 1);
    history.fill(links.min(1000));
    for _ in 0..PREVIEWS {
        let edits = history.random.between(1, 40);
        history.edits(edits);
        history.preview();
    }
    history.compare_contents();
}
