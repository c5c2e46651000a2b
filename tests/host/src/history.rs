//! Random histories: each edit's answer, then what the register holds, then questions.

pub mod previews;
pub mod two_people;
pub mod closing;
pub mod drafts;

use crate::engine::Answer;
use crate::run::{Run, Size};
use oracle::book::{Book, Call, Link, LABELS, MAX_LINKS};
use oracle::random::{expression, in_grammar, Random};
use oracle::relation::Relation;
use oracle::{chain, expression as expressions, rows, tree, Listed, Refusal, Space};

/// A book of the oracle beside the words of the engine.
pub struct History<'a> {
    run: &'a mut Run,
    random: Random,
    book: Book,
    pub words: Vec<u32>,
    labels: Vec<u32>,
}

/// The number of a refusal, 0 for accepted.
fn number(answer: Result<(), Refusal>) -> u32 {
    answer.err().map_or(0, |refusal| refusal.number().into())
}

/// What a chain, or none, becomes in such space.
fn within(answer: &Result<Option<Vec<u32>>, Refusal>, work: usize, space: Space) -> Answer<u32> {
    let answer = answer.clone().and_then(|words| {
        space.work_at_least(work)?;
        words.map(|words| space.listed(words).map(Listed::from)).transpose()
    });
    answer.map_err(|refusal| refusal.number().into())
}

/// What links or pairs become in such space: the first of them.
fn first_within(answer: &Result<Vec<u32>, Refusal>, work: usize, space: Space) -> Answer<u32> {
    let answer = answer.clone().and_then(|words| {
        space.work_at_least(work)?;
        Ok(Some(space.first(words)))
    });
    answer.map_err(|refusal| refusal.number().into())
}

/// The spaces in which a question is asked: exact, with room, a word too short, no list, none.
pub fn spaces(work: usize, list: usize) -> Vec<Space> {
    let mut spaces = vec![(work, list), (work, list + 1), (work + 3, list + 5), (work - 1, list), (work, 0), (0, 0)];
    if list > 0 {
        spaces.extend([(work, list - 1), (work - 1, list - 1)]);
    }
    spaces.into_iter().map(|(work, list)| Space { work, list }).collect()
}

/// The lists in which a question without work is asked: exact, with room, a word too short, none.
fn lists(list: usize) -> [usize; 4] {
    [list, list + 5, list.saturating_sub(1), 0]
}

impl<'a> History<'a> {
    /// A fresh register of a random size.
    pub fn fresh(run: &'a mut Run, seed: u64, size: Size) -> History<'a> {
        let mut random = Random::new(seed);
        let n = size.records(&mut random);
        let mut words: Vec<u32> = (0..dating::calls::STATE_WORDS).map(|_| random.word() as u32).collect();
        let answer = run.engine.fresh(n as u16, &mut words);
        run.same("fresh", &answer, &0);
        let labels = match random.below(4) {
            0 => (0..LABELS).collect(),
            kinds => (0..2 * kinds - 1).map(|_| random.label()).collect(),
        };
        History { run, random, book: Book::fresh(n).expect("n is in range"), words, labels }
    }

    fn n(&self) -> u32 {
        self.book.n()
    }

    fn edit(&mut self, call: Call) {
        let expected = number(self.book.call(call));
        let answer = self.run.engine.edit(&mut self.words, call);
        self.run.same_of(|| format!("{call:?}"), &answer, &expected);
        let label = match call {
            Call::Add(link) | Call::Remove(link) => link.label,
            _ => self.random.pick(&self.labels),
        };
        self.compare_total(label);
        self.run.counts.edits += 1;
    }

    /// The total of a label is the number of the book's links that have it.
    fn compare_total(&mut self, label: u32) {
        let answer = self.run.engine.total(&self.words, label as u8);
        let expected = self.book.total(label).map(|links| links as u32).map_err(|refusal| refusal.number().into());
        self.run.same_of(|| format!("total {label}"), &answer, &expected);
    }

    fn record(&mut self) -> u32 {
        let n = self.n();
        match self.random.below(20) {
            0 => self.random.pick(&[n, n + 1, 1023, 1024, 1025, 65535]),
            _ => self.random.record(n),
        }
    }

    fn link(&mut self) -> Link {
        let n = self.n();
        Link { from: self.random.record(n), label: self.random.pick(&self.labels), to: self.random.record(n) }
    }

    fn present(&mut self) -> Option<Link> {
        let links = &self.book.sheet().links;
        let at = self.random.below(links.len().max(1));
        links.iter().nth(at).copied()
    }

    /// A record that no link touches, if some draws find one.
    fn untouched(&mut self) -> u32 {
        let mut record = self.record();
        for _ in 0..8 {
            if self.book.first_cause(Call::Withdraw(record)).is_none() {
                break;
            }
            record = self.record();
        }
        record
    }

    /// Adds links until there are so many, or so many draws were made.
    fn fill(&mut self, links: usize) {
        for _ in 0..2 * links {
            if self.book.sheet().links.len() >= links {
                break;
            }
            let link = self.link();
            self.edit(Call::Add(link));
        }
    }

    /// An edit of any kind, that is accepted or refused.
    fn any_call(&mut self) -> Call {
        match self.random.below(26) {
            0..=5 => Call::Add(self.link()),
            6..=7 => {
                let label =
                    if self.random.chance(30) { self.random.pick(&[25, 26, 27, 255]) } else { self.random.label() };
                let link = Link { from: self.record(), label, to: self.record() };
                if self.random.chance(50) {
                    Call::Add(link)
                } else {
                    Call::Remove(link)
                }
            }
            8..=11 => self.present().map_or(Call::Undo, Call::Remove),
            12 => self.present().map_or(Call::Undo, Call::Add),
            13..=14 => Call::Lock(self.record()),
            15..=16 => {
                let locked = self.book.sheet().locked.iter().next().copied();
                locked.map_or(Call::Unlock(self.record()), Call::Unlock)
            }
            17 => Call::Unlock(self.record()),
            18..=19 => Call::Withdraw(self.record()),
            20 => Call::Withdraw(self.untouched()),
            21..=22 => {
                let withdrawn: Vec<u32> = self.book.sheet().withdrawn.iter().copied().collect();
                let some = !withdrawn.is_empty();
                Call::Reinstate(if some { self.random.pick(&withdrawn) } else { self.record() })
            }
            23 => Call::Reinstate(self.record()),
            _ => Call::Undo,
        }
    }

    /// Edits of every kind, accepted and refused.
    fn edits(&mut self, count: usize) {
        for _ in 0..count {
            let call = self.any_call();
            self.edit(call);
        }
    }

    /// Links, locks, withdrawn records, totals and size are those of the book.
    fn compare_contents(&mut self) {
        let word = |link: &Link| (link.label * 1024 + link.from) * 1024 + link.to;
        let mut links: Vec<u32> = self.book.sheet().links.iter().map(word).collect();
        links.sort();
        for space in spaces(1, links.len()) {
            let answer = self.run.engine.links(&self.words, space.list);
            let expected = first_within(&Ok(links.clone()), 0, space);
            self.run.same("links", &answer, &expected);
        }
        let size = self.run.engine.size(&self.words);
        self.run.same("size", &size, &self.n());
        for record in (0..self.n() + 2).chain([1024, 65535]) {
            let answer = self.run.engine.locked(&self.words, record as u16);
            let expected = u32::from(self.book.sheet().locked.contains(&record));
            self.run.same_of(|| format!("locked {record}"), &answer, &expected);
            let answer = self.run.engine.withdrawn(&self.words, record as u16);
            let expected = u32::from(self.book.sheet().withdrawn.contains(&record));
            self.run.same_of(|| format!("withdrawn {record}"), &answer, &expected);
        }
        for label in (0..=LABELS).chain([31, 97, 255]) {
            self.compare_total(label);
        }
        let (totals, marks) = (self.book.totals(), self.book.marks());
        for space in spaces(1, totals.len()).into_iter().chain(spaces(1, marks.len())) {
            let answer = self.run.engine.totals(&self.words, space.list);
            self.run.same("totals", &answer, &first_within(&Ok(totals.clone()), 0, space));
            let answer = self.run.engine.marks(&self.words, space.list);
            self.run.same("marks", &answer, &first_within(&Ok(marks.clone()), 0, space));
        }
        self.run.counts.contents += 1;
    }

    /// A text: for large registers mostly short, since a long one takes seconds.
    fn text(&mut self) -> Vec<u8> {
        if self.n() <= 128 || self.random.chance(10) {
            return expression(&mut self.random, &self.labels);
        }
        let letters = self.random.between(1, 6);
        in_grammar(&mut self.random, &self.labels, letters, 3)
    }

    /// Questions with the same text: all pairs, then chains, and the ends and the starts of the records that chains join.
    fn questions(&mut self) {
        let text = self.text();
        let shown = || format!("`{}`", String::from_utf8_lossy(&text));
        let read = expressions::read(&text);
        let (n, sheet) = (self.book.n(), self.book.sheet());
        let meant = read.as_ref().map_err(|&refusal| refusal).map(|e| Relation::meant(n, sheet, e));
        let related = meant.as_ref().map_err(|&refusal| refusal).map(Relation::pair_words);
        let list = related.as_ref().map_or(0, Vec::len);
        for space in spaces(tree::work(n), list) {
            let answer = self.run.engine.pairs(&self.words, &text, space);
            self.run.same_of(
                || format!("pairs {} in {space:?}", shown()),
                &answer,
                &first_within(&related, tree::work(n), space),
            );
            self.run.counts.pairs += 1;
        }
        let work = rows::work(n);
        for space in spaces(work, list) {
            let answer = self.run.engine.pairs_by_rows(&self.words, &text, space);
            let asked = || format!("pairs by rows {} in {space:?}", shown());
            self.run.same_of(asked, &answer, &first_within(&related, work, space));
            self.run.counts.rows += 1;
        }
        for _ in 0..3 {
            let (mut from, mut to) = (self.random.record(n), self.random.record(n));
            let joined = related.as_ref().map_or(&[][..], |words| words);
            match self.random.below(8) {
                0 => from = self.random.pick(&[n, n + 1, 1024, 65535]),
                1 => to = self.random.pick(&[n, n + 1, 1024, 65535]),
                2..=5 if !joined.is_empty() => {
                    let word = self.random.pick(joined);
                    (from, to) = (word / 1024, word % 1024);
                }
                _ => {}
            }
            let withdrawn = self.book.sheet().withdrawn.iter().next().copied();
            if let Some(record) = withdrawn.filter(|_| self.random.chance(20)) {
                (from, to) = self.random.pick(&[(record, record), (record, to), (from, record)]);
            }
            let steps = match &read {
                _ if from >= n || to >= n => Err(Refusal::Record),
                Err(refusal) => Err(*refusal),
                Ok(e) => Ok(chain::first(n, self.book.sheet(), e, from, to)),
            };
            let list = steps.as_ref().ok().and_then(Option::as_ref).map_or(0, Vec::len);
            let work = 64 * n as usize;
            for space in spaces(work, list) {
                let answer = self.run.engine.chain(&self.words, from, to, &text, space);
                let asked = || format!("chain {from} {to} {} in {space:?}", shown());
                self.run.same_of(asked, &answer, &within(&steps, work, space));
                self.run.counts.chains += 1;
            }
            let asked_of = |record: u32, joined: fn(&Relation, u32) -> Vec<u32>| match &meant {
                _ if record >= n => Err(Refusal::Record),
                Err(refusal) => Err(*refusal),
                Ok(relation) => Ok(joined(relation, record)),
            };
            let (ends, starts) = (asked_of(from, Relation::ends), asked_of(to, Relation::starts));
            for list in lists(ends.as_ref().map_or(0, Vec::len)) {
                let answer = self.run.engine.ends(&self.words, from, &text, list);
                let asked = || format!("ends {from} {} in a list of {list}", shown());
                self.run.same_of(asked, &answer, &first_within(&ends, 0, Space { work: 0, list }));
                self.run.counts.ends += 1;
            }
            for list in lists(starts.as_ref().map_or(0, Vec::len)) {
                let answer = self.run.engine.starts(&self.words, to, &text, list);
                let asked = || format!("starts {to} {} in a list of {list}", shown());
                self.run.same_of(asked, &answer, &first_within(&starts, 0, Space { work: 0, list }));
                self.run.counts.starts += 1;
            }
        }
    }
}

/// A register filled, edited and asked, then taken back as far as it is held.
pub fn history(run: &mut Run, seed: u64, size: Size) {
    let mut history = History::fresh(run, seed, size);
    history.compare_contents();
    let n = history.n() as usize;
    let links = match history.random.below(6) {
        0 => MAX_LINKS,
        1 => 0,
        _ => history.random.below(4 * n + 1),
    };
    history.fill(links);
    let rounds = history.random.between(1, 3);
    for _ in 0..rounds {
        let edits = history.random.between(10, 300);
        history.edits(edits);
        history.compare_contents();
        history.questions();
    }
    if history.random.chance(60) {
        for _ in 0..=history.book.held() + 1 {
            history.edit(Call::Undo);
        }
        history.compare_contents();
        history.questions();
    }
}

/// As many links as there may be, and edits at the limit.
pub fn full(run: &mut Run, seed: u64, size: Size) {
    let mut history = History::fresh(run, seed, size);
    history.labels = (0..LABELS).collect();
    for _ in 0..2 * MAX_LINKS {
        let link = history.link();
        history.edit(Call::Add(link));
    }
    history.compare_contents();
    history.questions();
    for _ in 0..20 {
        if let Some(link) = history.present() {
            history.edit(Call::Remove(link));
        }
        let link = history.link();
        history.edit(Call::Add(link));
        let link = history.link();
        history.edit(Call::Add(link));
    }
    history.edits(50);
    history.compare_contents();
}

/// A ring, and chains that go around it many times.
pub fn ring(run: &mut Run, seed: u64, size: Size) {
    let mut history = History::fresh(run, seed, size);
    let (n, label) = (history.n(), history.random.label());
    history.labels = vec![label];
    for from in 0..n {
        history.edit(Call::Add(Link { from, label, to: (from + 1) % n }));
    }
    for letters in [n.min(63), 63, 2] {
        let round = vec![[b'a' + label as u8]; letters as usize].join(&b'/');
        let before = history.random.pick(&["", "^"]).as_bytes();
        let after = history.random.pick(&["+", "*"]).as_bytes();
        let text = [before, b"(", &round, b")", after].concat();
        let (from, to) = (history.random.record(n), history.random.record(n));
        let e = expressions::read(&text).expect("it is in the grammar");
        let steps = Ok(chain::first(n, history.book.sheet(), &e, from, to));
        let list = steps.as_ref().ok().and_then(Option::as_ref).map_or(0, Vec::len);
        let work = 64 * n as usize;
        for space in spaces(work, list) {
            let answer = history.run.engine.chain(&history.words, from, to, &text, space);
            let asked = || format!("ring {n}, chain {from} {to} of {letters} letters in {space:?}");
            history.run.same_of(asked, &answer, &within(&steps, work, space));
            history.run.counts.chains += 1;
        }
    }
}

impl History<'_> {
    /// Some edits, for those who damage the register after.
    pub fn some(&mut self) {
        let links = self.random.below(4 * self.n() as usize + 1);
        self.fill(links.min(400));
        self.edits(40);
    }
}
