//! Lists of edits made all or none: random ones, some with a word put in that is refused or is no call, at every place. The answer and what the register
//! holds after are the oracle's, and what the single calls give one after the other.

use super::History;
use crate::run::{Run, Size};
use oracle::book::Call;
use oracle::draft;

/// Kinds that are none of an edit or undo, closing up among them; the words of a call have 24 bits for the kind.
const OTHER_KINDS: [u64; 12] = [0, 1, 7, 8, 9, 12, 13, 14, 255, 258, 65538, 0xff_ffff];

impl History<'_> {
    /// A call as a word; arguments that its kind does not take are any.
    fn word(&mut self, call: Call) -> u64 {
        let (kind, from, label, to) = self.arguments(call);
        u64::from(kind) << 40 | u64::from(from) << 24 | u64::from(label) << 16 | u64::from(to)
    }

    /// Calls that the book accepts one after the other.
    fn accepted(&mut self, count: usize) -> Vec<u64> {
        let before = self.book.clone();
        let mut words = Vec::new();
        for _ in 0..4 * count {
            let call = self.any_call();
            if words.len() < count && self.book.call(call).is_ok() {
                let word = self.word(call);
                words.push(word);
            }
        }
        self.book = before;
        words
    }

    /// A word that is no call, or a call that may be refused.
    fn wrong(&mut self) -> u64 {
        if self.random.chance(30) {
            return self.random.pick(&OTHER_KINDS) << 40 | self.random.word() >> 24;
        }
        let call = self.any_call();
        self.word(call)
    }

    /// A list: its answer and the register after it are the oracle's; a copy has the same made call by call, up to the first refusal.
    fn draft(&mut self, words: &[u64]) {
        let expected = draft::apply_all(&mut self.book, words).map_err(|(place, refusal)| (place, refusal.number().into()));
        let mut single = self.words.clone();
        let answer = self.run.engine.apply_all(&mut self.words, words);
        self.run.same_of(|| format!("a list {words:x?}"), &answer, &expected);
        let mut by_calls = Ok(words.len());
        for (place, &word) in words.iter().enumerate() {
            let number = draft::call(word).map_or(15, |call| self.run.engine.edit(&mut single, call));
            if number != 0 {
                by_calls = Err((place, number));
                break;
            }
        }
        self.run.same_of(|| format!("a list {words:x?} call by call"), &answer, &by_calls);
        if by_calls.is_ok() {
            let same = single == self.words;
            self.run.same_of(|| format!("the words after a list {words:x?}"), &same, &true);
        }
        self.run.counts.edits += words.len();
    }
}

/// A register edited by lists: whole ones, and ones with a word put in at every place.
pub fn drafts(run: &mut Run, seed: u64, size: Size) {
    let mut history = History::fresh(run, seed, size);
    history.draft(&[]);
    let links = history.random.below(3 * history.n() as usize + 1);
    history.fill(links.min(600));
    for _ in 0..4 {
        let count = history.random.between(1, 24);
        let words = history.accepted(count);
        for place in 0..=words.len() {
            let mut refused = words.clone();
            let word = history.wrong();
            refused.insert(place, word);
            if place % 3 == 0 {
                let word = history.wrong();
                refused.push(word);
            }
            history.draft(&refused);
        }
        let words = history.accepted(count);
        history.draft(&words);
        history.compare_contents();
    }
    let count = history.random.pick(&[200, 300, 600]);
    let words = history.accepted(count);
    history.draft(&words);
    history.compare_contents();
    while history.book.held() > 0 {
        history.edit(Call::Undo);
    }
    history.compare_contents();
}
