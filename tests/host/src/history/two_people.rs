//! Two people at one sheet: two adds or removes of different links in both orders, on registers of any size, some of them full or almost. What both orders
//! leave is read and asked by the exported calls, and must be the same (S13).

use super::{spaces, History};
use crate::run::{Run, Size};
use oracle::book::{Call, Link, LABELS, MAX_LINKS};
use oracle::{tree, Space};

/// How many pairs of edits a register gets.
const TURNS: usize = 6;

impl History<'_> {
    /// A link that is present, or any; half of the time with an end of the one given.
    fn some_link(&mut self, beside: Option<Link>) -> Link {
        let found = if self.random.chance(50) { self.present() } else { None };
        let link = found.unwrap_or_else(|| self.link());
        match beside {
            Some(other) if self.random.chance(50) => {
                self.random.pick(&[Link { from: other.from, ..link }, Link { to: other.to, ..link }, Link { label: link.label, ..other }])
            }
            _ => link,
        }
    }

    /// An add or a remove of the link: mostly the one that its presence asks for.
    fn single(&mut self, link: Link) -> Call {
        if self.book.sheet().links.contains(&link) != self.random.chance(10) {
            Call::Remove(link)
        } else {
            Call::Add(link)
        }
    }

    /// The numbers of two calls, one after the other, and the words that they leave.
    fn after(&mut self, calls: [Call; 2]) -> ([u32; 2], Vec<u32>) {
        let mut words = self.words.clone();
        (calls.map(|call| self.run.engine.edit(&mut words, call)), words)
    }

    /// Whatever is read of two registers, and asked of them, is the same.
    fn compare_registers(&mut self, what: &str, one: &[u32], other: &[u32]) {
        let run = &mut *self.run;
        let n = self.book.n();
        let sizes = [one, other].map(|words| run.engine.size(words));
        run.same_of(|| format!("{what}: size"), &sizes[0], &sizes[1]);
        for list in [0, 1, MAX_LINKS] {
            let links = [one, other].map(|words| run.engine.links(words, list));
            run.same_of(|| format!("{what}: links"), &links[0], &links[1]);
        }
        for record in (0..n + 1).map(|record| record as u16) {
            let marks = [one, other].map(|words| (run.engine.locked(words, record), run.engine.withdrawn(words, record)));
            run.same_of(|| format!("{what}: marks of {record}"), &marks[0], &marks[1]);
        }
        for label in 0..=LABELS as u8 {
            let totals = [one, other].map(|words| run.engine.total(words, label));
            run.same_of(|| format!("{what}: total {label}"), &totals[0], &totals[1]);
        }
        self.compare_answers(what, one, other);
    }

    /// Both questions about one text, in spaces that are enough and that are not.
    fn compare_answers(&mut self, what: &str, one: &[u32], other: &[u32]) {
        let text = self.text();
        let n = self.n();
        let ends = [self.record(), self.record()];
        let run = &mut *self.run;
        let counted = run.engine.pairs(one, &text, Space { work: tree::work(n), list: 0 });
        let pairs = counted.ok().flatten().map_or(0, |listed| listed.total);
        for space in spaces(tree::work(n), pairs) {
            let answers = [one, other].map(|words| run.engine.pairs(words, &text, space));
            run.same_of(|| format!("{what}: pairs of {:?} in {space:?}", String::from_utf8_lossy(&text)), &answers[0], &answers[1]);
            run.counts.pairs += 2;
        }
        let work = 64 * n as usize;
        let told = run.engine.chain(one, ends[0], ends[1], &text, Space { work, list: 63 * n as usize });
        let steps = told.ok().flatten().map_or(0, |listed| listed.total);
        for space in spaces(work, steps) {
            let answers = [one, other].map(|words| run.engine.chain(words, ends[0], ends[1], &text, space));
            run.same_of(|| format!("{what}: chain {ends:?} of {:?} in {space:?}", String::from_utf8_lossy(&text)), &answers[0], &answers[1]);
            run.counts.chains += 2;
        }
    }

    /// Two edits of different links in both orders. Unless the register is full, the second order accepts what the first does; a full one takes an add after a
    /// remove, and not before it.
    fn exchange(&mut self) -> bool {
        let one = self.some_link(None);
        let other = self.some_link(Some(one));
        if one == other {
            return false;
        }
        let calls = [self.single(one), self.single(other)];
        let (numbers, words) = self.after(calls);
        let (turned, others) = self.after([calls[1], calls[0]]);
        let what = format!("{calls:?} with {} links", self.book.sheet().links.len());
        if numbers != [0, 0] {
            return false;
        }
        if self.book.sheet().links.len() == MAX_LINKS && matches!(calls, [Call::Remove(_), Call::Add(_)]) {
            self.run.same_of(|| format!("{what}: an add to a full register"), &turned, &[7, 0]);
            return false;
        }
        self.run.same_of(|| format!("{what}: in the other order"), &turned, &numbers);
        self.compare_registers(&what, &words, &others);
        // an undo takes back the later of the two, in either order
        let (mut undone, mut first) = (words, self.words.clone());
        let numbers = [self.run.engine.edit(&mut undone, Call::Undo), self.run.engine.edit(&mut first, calls[0])];
        let links = [undone, first].map(|words| self.run.engine.links(&words, MAX_LINKS));
        self.run.same_of(|| format!("{what}: an undo then"), &(numbers, &links[0]), &([0, 0], &links[1]));
        true
    }

    fn exchanges(&mut self) {
        for _ in 0..TURNS {
            // some draws are of one link, or refused
            for _ in 0..20 {
                if self.exchange() {
                    break;
                }
            }
            let edits = self.random.between(1, 10);
            self.edits(edits);
        }
    }
}

/// Some links, and edits of every kind between the pairs of edits.
pub fn two_people(run: &mut Run, seed: u64, size: Size) {
    let mut history = History::fresh(run, seed, size);
    let links = history.random.below(3 * history.n() as usize + 1);
    history.fill(links.min(1000));
    history.edits(30);
    history.exchanges();
    history.compare_contents();
}

/// A register that is full, or up to four links short of it.
pub fn almost_full(run: &mut Run, seed: u64, size: Size) {
    let mut history = History::fresh(run, seed, size);
    history.labels = (0..LABELS).collect();
    let short = history.random.below(5);
    history.fill(MAX_LINKS - short);
    history.exchanges();
    history.compare_contents();
}
