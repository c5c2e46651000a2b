//! Histories with closings up: each answer and list, and what is asked before and after, compared under the renaming.

use super::History;
use crate::engine::Engine;
use crate::run::{Run, Size};
use oracle::book::Call;
use oracle::{tree, Listed, Space};

/// A pair of records, and the words of the chain between them, or none.
type Chain = (u32, u32, Option<Vec<u32>>);

/// What was asked of one text: all pairs, and chains between records in use.
struct Asked {
    text: Vec<u8>,
    pairs: Vec<u32>,
    chains: Vec<Chain>,
}

impl History<'_> {
    /// The answers to questions with room enough, where the text is an expression; `work` is for n records.
    fn ask(&mut self, text: &[u8], between: &[(u32, u32)], n: u32) -> Option<Asked> {
        let ample = |work: usize| Space { work, list: 64 * 1024 };
        let pairs = self.run.engine.pairs(&self.words, text, Space { list: 1024 * 1024, ..ample(tree::work(n)) });
        let pairs = pairs.ok()?.expect("pairs are told").words;
        let mut chains = Vec::new();
        for &(from, to) in between {
            let answer = self.run.engine.chain(&self.words, from, to, text, ample(64 * n as usize));
            chains.push((from, to, answer.ok()?.map(|Listed { words, .. }| words)));
        }
        Some(Asked { text: text.to_vec(), pairs, chains })
    }

    /// Records in use, some.
    fn used(&mut self) -> Vec<u32> {
        let withdrawn = self.book.sheet().withdrawn.clone();
        let used: Vec<u32> = (0..self.n()).filter(|record| !withdrawn.contains(record)).collect();
        (0..6).filter(|_| !used.is_empty()).map(|_| self.random.pick(&used)).collect()
    }

    /// A closing up with a list of so many words: the answer, the list, and where it is accepted the questions asked before it.
    fn close(&mut self, room: usize) {
        let n = self.n();
        let used = self.used();
        let between: Vec<(u32, u32)> = used.chunks_exact(2).map(|ends| (ends[0], ends[1])).collect();
        let texts = [self.text(), b"(a|b|^a|^b)*".to_vec()];
        let asked: Vec<Asked> = texts.iter().filter_map(|text| self.ask(text, &between, n)).collect();
        let numbers = self.book.close_up(room);
        let expected = numbers.clone().map_err(|refusal| refusal.number().into()).map(|numbers| {
            let told = numbers.iter().map(|number| number.map_or(65535, |number| number as u16));
            told.chain(Engine::past(n as usize, room)).collect::<Vec<u16>>()
        });
        let answer = self.run.engine.close_up(&mut self.words, room);
        self.run.same_of(|| format!("closing up {n} records with {room} words"), &answer, &expected);
        self.run.counts.edits += 1;
        let Ok(numbers) = numbers else { return };
        let new = |old: u32| numbers[old as usize].expect("in use");
        for before in asked {
            let between: Vec<(u32, u32)> = before.chains.iter().map(|&(from, to, _)| (new(from), new(to))).collect();
            let pairs: Vec<u32> = before.pairs.iter().map(|pair| new(pair / 1024) * 1024 + new(pair % 1024)).collect();
            let step = |word: &u32| word / 1024 * 1024 + new(word % 1024);
            let chains = before.chains.iter().map(|(from, to, words)| {
                (new(*from), new(*to), words.as_ref().map(|words| words.iter().map(step).collect()))
            });
            let chains: Vec<Chain> = chains.collect();
            let shown = String::from_utf8_lossy(&before.text).into_owned();
            let after = self.ask(&before.text, &between, n).map(|after| (after.pairs, after.chains));
            self.run.same_of(|| format!("`{shown}` before and after closing up"), &after, &Some((pairs, chains)));
        }
        self.edit(Call::Undo);
    }

    /// Every record withdrawn, as far as the book allows.
    fn withdraw_all(&mut self) {
        while let Some(link) = self.present() {
            for record in [link.from, link.to] {
                self.edit(Call::Unlock(record));
            }
            self.edit(Call::Remove(link));
        }
        for record in 0..self.n() {
            self.edit(Call::Unlock(record));
            self.edit(Call::Withdraw(record));
        }
    }
}

/// Edits and closings up by turns: lists exact, one word short, empty and longer; at last every record withdrawn.
pub fn closings(run: &mut Run, seed: u64, size: Size) {
    let mut history = History::fresh(run, seed, size);
    let n = history.n() as usize;
    let links = history.random.below(2 * n + 1);
    history.fill(links);
    let rounds = history.random.between(1, 4);
    for _ in 0..rounds {
        let edits = history.random.between(0, 80);
        history.edits(edits);
        for _ in 0..history.random.below(n + 1).min(200) {
            let record = history.untouched();
            history.edit(Call::Withdraw(record));
        }
        let n = history.n() as usize;
        history.close(n - 1);
        history.close(0);
        history.compare_contents();
        let room = n + history.random.pick(&[0, 0, 1, 7]);
        history.close(room);
        history.compare_contents();
    }
    history.questions();
    if history.n() <= 64 || history.random.chance(10) {
        history.withdraw_all();
        let n = history.n() as usize;
        for room in [n, n - 1, 0, n + 3] {
            history.close(room);
        }
        history.compare_contents();
    }
}
