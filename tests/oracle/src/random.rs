//! Random numbers, expressions and sessions of frames; the same seed gives the same.

use crate::book::{Book, Call, Link, LABELS, MAX_HELD, MAX_LINKS};
use crate::frame::{frame, Request};
use crate::{program, question, Space};

/// A generator of random numbers (SplitMix64).
pub struct Random(u64);

impl Random {
    pub fn new(seed: u64) -> Random {
        Random(seed)
    }

    /// Any number.
    pub fn word(&mut self) -> u64 {
        self.0 = self.0.wrapping_add(0x9e37_79b9_7f4a_7c15);
        let mut z = self.0;
        z = (z ^ (z >> 30)).wrapping_mul(0xbf58_476d_1ce4_e5b9);
        z = (z ^ (z >> 27)).wrapping_mul(0x94d0_49bb_1331_11eb);
        z ^ (z >> 31)
    }

    /// A number below `bound`.
    pub fn below(&mut self, bound: usize) -> usize {
        (self.word() % bound as u64) as usize
    }

    /// A number from `least` to `most`.
    pub fn between(&mut self, least: usize, most: usize) -> usize {
        least + self.below(most - least + 1)
    }

    /// A record below n.
    pub fn record(&mut self, n: u32) -> u32 {
        self.below(n as usize) as u32
    }

    pub fn chance(&mut self, percent: usize) -> bool {
        self.below(100) < percent
    }

    pub fn label(&mut self) -> u32 {
        self.below(LABELS as usize) as u32
    }

    pub fn pick<T: Copy>(&mut self, from: &[T]) -> T {
        from[self.below(from.len())]
    }
}

/// Texts that are outside the grammar.
const FAULTS: [&str; 51] = [
    "", "()", "a**", "^^a", "a|", "|a", "a||b", "a/", "/a", "a//b", "a b", " a", "a ", "A", "ab", "a^b", "(a", "a)",
    ")a(", "*", "^", "a*+", "a+*", "a++", "a??", "a?*", "(a)(b)", "a(b)", "^*a", "a/|b", "(a|)", "a\n", "1", "!",
    "!()", "!(a", "!(a|", "!(a|)", "!(|a)", "!((a))", "!(a*)", "!(a/b)", "!(!a)", "!!a", "!^^a", "^^!a", "!*a", "a!",
    "!(^)", "!a!b", "!(a b)",
];

/// An expression's text of any sort: mostly in the grammar and within the limits, now and then faulty, at a limit or
/// over one. Its letters are mostly those of `labels`.
pub fn expression(random: &mut Random, labels: &[u32]) -> Vec<u8> {
    match random.below(100) {
        0..=59 => {
            let letters = random.between(1, 5);
            in_grammar(random, labels, letters, 3)
        }
        60..=74 => {
            let letters = random.between(6, 20);
            in_grammar(random, labels, letters, 4)
        }
        75..=79 => {
            let letters = random.between(60, 66);
            in_grammar(random, labels, letters, 1)
        }
        80..=84 => {
            let depth = random.between(6, 10);
            of_depth(random, labels, depth)
        }
        85..=89 => {
            let bytes = random.between(253, 260);
            of_bytes(random, labels, bytes)
        }
        90..=92 => random.pick(&FAULTS).into(),
        93 => (0..random.between(1, 1000)).map(|_| random.word() as u8).collect(),
        _ => {
            let text = match random.below(4) {
                0 => of_depth(random, labels, 9),
                1 => in_grammar(random, labels, 65, 1),
                _ => in_grammar(random, labels, 4, 2),
            };
            damaged(random, text)
        }
    }
}

/// A text of the grammar with so many letters, and groups at most `depth` deep.
pub fn in_grammar(random: &mut Random, labels: &[u32], letters: usize, depth: usize) -> Vec<u8> {
    if letters > 1 && (depth == 0 || random.chance(65)) {
        let left = random.between(1, letters - 1);
        let left_text = in_grammar(random, labels, left, depth);
        let operator = random.pick(b"|/");
        let right_text = in_grammar(random, labels, letters - left, depth);
        [&left_text[..], &[operator], &right_text].concat()
    } else if letters > 1 || (depth > 0 && random.chance(10)) {
        let held = in_grammar(random, labels, letters, depth - 1);
        part(random, &[b"(", &held[..], b")"].concat())
    } else {
        let symbol = symbol(random, labels);
        part(random, &symbol)
    }
}

/// A letter, or now and then a negated set.
fn symbol(random: &mut Random, labels: &[u32]) -> Vec<u8> {
    if random.chance(80) {
        return vec![letter(random, labels)];
    }
    let member = |random: &mut Random| {
        let before: &[u8] = if random.chance(45) { b"^" } else { b"" };
        [before, &[letter(random, labels)]].concat()
    };
    if random.chance(40) {
        return [b"!", &member(random)[..]].concat();
    }
    let members: Vec<Vec<u8>> = (0..random.between(1, 4)).map(|_| member(random)).collect();
    [b"!(", &members.join(&b'|')[..], b")"].concat()
}

fn letter(random: &mut Random, labels: &[u32]) -> u8 {
    let label = if random.chance(97) { random.pick(labels) } else { random.label() };
    b'a' + label as u8
}

/// A part of a letter or group: perhaps inverted, perhaps repeated or optional.
fn part(random: &mut Random, held: &[u8]) -> Vec<u8> {
    let before: &[u8] = if random.chance(25) { b"^" } else { b"" };
    let after: &[u8] = if random.chance(40) { random.pick(&[b"*", b"+", b"?"]) } else { b"" };
    [before, held, after].concat()
}

/// A text of the grammar with groups so many deep.
fn of_depth(random: &mut Random, labels: &[u32], depth: usize) -> Vec<u8> {
    let mut text = in_grammar(random, labels, 2, 0);
    for _ in 0..depth {
        text = part(random, &[b"(", &text[..], b")"].concat());
        if random.chance(20) {
            let letter = letter(random, labels);
            text = [&[letter, random.pick(b"|/")], &text[..]].concat();
        }
    }
    text
}

/// A text of the grammar with so many bytes, from 125 to 300, and about as many letters as are allowed.
fn of_bytes(random: &mut Random, labels: &[u32], bytes: usize) -> Vec<u8> {
    let letters = random.pick(&[60, 62, 63, 63, 63, 64]);
    let mut parts: Vec<(bool, bool, bool)> = vec![(false, false, false); letters];
    let mut missing = bytes.saturating_sub(2 * letters - 1);
    while missing > 0 {
        let at = random.below(letters);
        let (inverse, group, repeat) = &mut parts[at];
        match random.below(3) {
            0 if !*inverse => (*inverse, missing) = (true, missing - 1),
            1 if !*repeat => (*repeat, missing) = (true, missing - 1),
            2 if !*group && missing > 1 => (*group, missing) = (true, missing - 2),
            _ => {}
        }
    }
    let mut text = Vec::new();
    for (inverse, group, repeat) in parts {
        if !text.is_empty() {
            text.push(random.pick(b"|/"));
        }
        text.extend(inverse.then_some(b'^'));
        text.extend(group.then_some(b'('));
        text.push(letter(random, labels));
        text.extend(group.then_some(b')'));
        text.extend(repeat.then(|| random.pick(b"*+?")));
    }
    text
}

/// A text with a byte taken out, put in or exchanged; every third time at its end.
fn damaged(random: &mut Random, mut text: Vec<u8>) -> Vec<u8> {
    let byte = random.pick(b"az|/^!!*+?()  A{`\0\xff");
    let last = text.len() - 1;
    let at = if random.chance(33) { last } else { random.between(0, last) };
    match random.below(3) {
        0 => {
            text.remove(at);
        }
        1 => text.insert(at + random.below(2), byte),
        _ => text[at] = byte,
    }
    text
}

/// A session of so many frames or more fills a register to its last link.
pub const FILLING_SESSION: usize = 5000;

/// A session of `count` frames. `seed` modulo 9 says whether the last of them ends the run, and how.
pub fn session(seed: u64, count: usize) -> Vec<u8> {
    let mut session = Session {
        random: Random::new(seed),
        book: None,
        labels: vec![0, 1],
        accepted: 0,
        frames: Vec::new(),
        left: count,
    };
    let ending = if count == 0 { None } else { ending(seed % 9) };
    session.left -= usize::from(ending.is_some());
    if session.random.chance(60) {
        for _ in 0..session.random.between(1, 6) {
            match session.random.below(3) {
                0 => session.unknown_kind(),
                1 => session.wrong_size(),
                _ => session.mixed(1, true),
            }
        }
    }
    if count >= FILLING_SESSION {
        session.fill();
    }
    while session.left > 0 {
        match session.random.below(14) {
            0..=1 => session.undo_run(),
            2 => session.ring(),
            _ => {
                session.start();
                let length = session.random.between(50, 300);
                session.mixed(length, false);
            }
        }
    }
    session.frames.extend(ending.unwrap_or_default());
    session.frames
}

/// What ends a run: a length below 2 or above 1,024, after which no frame is read, or a cut frame.
fn ending(which: u64) -> Option<Vec<u8>> {
    let unread = Request::Open(3).frame();
    match which {
        1 => Some([&[0, 0][..], &unread].concat()),
        2 => Some([&[1, 0][..], &unread].concat()),
        3 => Some([&[1, 4][..], &[b'a'; 1025][..], &unread].concat()),
        4 => Some([&[255, 255][..], &unread].concat()),
        5 => Some(vec![7]),
        6 => Some(vec![4, 0]),
        7 => Some(vec![4, 0, 1]),
        8 => Some(vec![5, 0, 7, 0, b'a']),
        _ => None,
    }
}

/// A session on the way: the book tells which edits would be accepted.
struct Session {
    random: Random,
    book: Option<Book>,
    labels: Vec<u32>,
    accepted: usize,
    frames: Vec<u8>,
    left: usize,
}

impl Session {
    /// Writes a frame, unless there are enough.
    fn put(&mut self, frame: Vec<u8>) {
        if self.left > 0 {
            self.left -= 1;
            self.frames.extend(frame);
        }
    }

    fn ask(&mut self, request: Request) {
        match request {
            Request::Open(n) => self.book = program::open(n).ok().or(self.book.take()),
            Request::Edit(call) => {
                let accepted = self.book.as_mut().is_some_and(|book| book.call(call).is_ok());
                self.accepted += usize::from(accepted);
            }
            _ => {}
        }
        self.put(request.frame());
    }

    fn edit(&mut self, call: Call) {
        self.ask(Request::Edit(call));
    }

    /// The number of records, or some number before there is a register.
    fn n(&self) -> u32 {
        self.book.as_ref().map_or(8, Book::n)
    }

    fn links(&self) -> usize {
        self.book.as_ref().map_or(0, |book| book.sheet().links.len())
    }

    /// Opens a fresh register, chooses the labels that are used most, and puts in some links.
    fn start(&mut self) {
        let n = match self.random.below(4) {
            0 => self.random.between(1, 4),
            1 => self.random.between(5, 16),
            2 => self.random.between(17, 64),
            _ => self.random.pick(&[1, 2, 3, 4, 31, 32, 33, 63, 64]),
        };
        self.ask(Request::Open(n as u32));
        let kinds = self.random.between(1, 4);
        self.labels = (0..kinds).map(|_| self.random.label()).collect();
        for _ in 0..self.random.below(2 * n + 1) {
            self.add_absent();
        }
    }

    /// So many requests of every kind; with `no_open` no open that is accepted.
    fn mixed(&mut self, length: usize, no_open: bool) {
        for _ in 0..length {
            match self.random.below(100) {
                0..=16 => self.add_absent(),
                17..=20 => {
                    let link = self.any_link();
                    self.edit(Call::Add(link));
                }
                21..=27 => self.remove_present(),
                28..=29 => {
                    let link = self.any_link();
                    self.edit(Call::Remove(link));
                }
                30..=34 => {
                    let record = self.any_record();
                    self.edit(Call::Lock(record));
                }
                35..=41 => self.unlock(),
                42..=45 => self.withdraw(),
                46..=49 => self.reinstate(),
                50..=57 => self.edit(Call::Undo),
                58..=73 => self.pairs(),
                74..=76 => self.total(),
                77..=94 => self.chain(),
                95..=96 => self.unknown_kind(),
                97 => self.wrong_size(),
                98 => {
                    let n = self.random.pick(&[0, 65, 66, 67, 68, 69, 70, 256, 1024, 1025, 65535]);
                    self.ask(Request::Open(n));
                }
                _ if no_open => {}
                _ => {
                    let n = self.random.between(0, 70) as u32;
                    self.ask(Request::Open(n));
                }
            }
        }
    }

    /// A record below n.
    fn record(&mut self) -> u32 {
        let n = self.n();
        self.random.record(n)
    }

    /// A record, now and then not below n.
    fn any_record(&mut self) -> u32 {
        let n = self.n();
        if self.random.chance(92) {
            self.record()
        } else {
            self.random.pick(&[n, n + 1, 63, 64, 255, 256, 256 + n - 1, 1023, 1024, 65535])
        }
    }

    /// A link with records below n and one of the labels used most.
    fn link(&mut self) -> Link {
        Link { from: self.record(), label: self.random.pick(&self.labels), to: self.record() }
    }

    /// A link of any sort, mostly with records below n and a label.
    fn any_link(&mut self) -> Link {
        let mut link = self.link();
        link.from = self.any_record();
        link.to = self.any_record();
        if self.random.chance(12) {
            link.label = self.random.pick(&[0, 25, 26, 27, 31, 32, 97, 122, 255]);
        }
        link
    }

    /// A link that is absent; there must be one.
    fn absent_link(&mut self) -> Link {
        loop {
            let link = self.link();
            if self.book.as_ref().is_some_and(|book| !book.sheet().links.contains(&link)) {
                return link;
            }
        }
    }

    /// Adds a link that is absent, with no end locked, if some draws find one.
    fn add_absent(&mut self) {
        let mut link = self.link();
        for _ in 0..8 {
            if self.book.as_ref().is_some_and(|book| book.first_cause(Call::Add(link)).is_none()) {
                break;
            }
            link = self.link();
        }
        self.edit(Call::Add(link));
    }

    fn remove_present(&mut self) {
        let place = self.links().checked_sub(1).map(|last| self.random.between(0, last));
        let present = |at| self.book.as_ref().and_then(|book| book.sheet().links.iter().nth(at).copied());
        let link = place.and_then(present).unwrap_or(Link { from: 0, label: 0, to: 0 });
        self.edit(Call::Remove(link));
    }

    /// Mostly unlocks a locked record.
    fn unlock(&mut self) {
        let locked: Vec<u32> = self.book.iter().flat_map(|book| book.sheet().locked.iter().copied()).collect();
        let record =
            if locked.is_empty() || self.random.chance(15) { self.any_record() } else { self.random.pick(&locked) };
        self.edit(Call::Unlock(record));
    }

    /// Mostly withdraws a record that nothing is against, if some draws find one.
    fn withdraw(&mut self) {
        let mut record = self.any_record();
        for _ in 0..self.random.below(8) {
            if self.book.as_ref().is_some_and(|book| book.first_cause(Call::Withdraw(record)).is_none()) {
                break;
            }
            record = self.record();
        }
        self.edit(Call::Withdraw(record));
    }

    fn withdrawn(&self) -> Vec<u32> {
        self.book.iter().flat_map(|book| book.sheet().withdrawn.iter().copied()).collect()
    }

    /// Mostly reinstates a withdrawn record.
    fn reinstate(&mut self) {
        let withdrawn = self.withdrawn();
        let some = !withdrawn.is_empty() && self.random.chance(75);
        let record = if some { self.random.pick(&withdrawn) } else { self.any_record() };
        self.edit(Call::Reinstate(record));
    }

    fn pairs(&mut self) {
        let text = expression(&mut self.random, &self.labels);
        self.ask(Request::Pairs(text));
    }

    /// A chain question, every other time for a pair that has a chain if there is one, and now and then from or to a
    /// withdrawn record.
    fn chain(&mut self) {
        let text = expression(&mut self.random, &self.labels);
        let mut ends = (self.any_record(), self.any_record());
        if self.random.chance(50) {
            let with_chain = self.book.as_ref().and_then(|book| question::pairs(book, &text, Space::AMPLE).ok());
            if let Some(words) = with_chain.map(|pairs| pairs.words).filter(|words| !words.is_empty()) {
                let word = self.random.pick(&words);
                ends = (word / 1024, word % 1024);
            }
        }
        let withdrawn = self.withdrawn();
        if !withdrawn.is_empty() && self.random.chance(10) {
            let record = self.random.pick(&withdrawn);
            ends = self.random.pick(&[(record, record), (record, ends.1), (ends.0, record)]);
        }
        self.ask(Request::Chain(ends.0, ends.1, text));
    }

    /// Mostly of a label that is used, now and then of one that there is not.
    fn total(&mut self) {
        let label = match self.random.below(10) {
            0 => self.random.pick(&[0, 25, 26, 27, 97, 255]),
            1..=2 => self.random.label(),
            _ => self.random.pick(&self.labels),
        };
        self.ask(Request::Total(label));
    }

    fn unknown_kind(&mut self) {
        let kind = self.random.pick(&[0, 12, 13, 255, 256, 257, 258, 263, 264, 0x0700, 0x0800, 65535]);
        let size = self.random.pick(&[0, 2, 4, 5, 6, 1022]);
        self.put(frame(kind, &vec![0; size]));
    }

    fn wrong_size(&mut self) {
        let kind = self.random.pick(&[1, 2, 3, 4, 5, 6, 8, 9, 10, 11]);
        let sizes: Vec<usize> =
            (0..=8).chain([1022]).filter(|&size| Request::read(kind, &vec![1; size]).is_err()).collect();
        let size = self.random.pick(&sizes);
        self.put(frame(kind, &vec![1; size]));
    }

    /// About as many accepted edits as are held or more, then more undos.
    fn undo_run(&mut self) {
        self.accepted = 0;
        self.start();
        let edits = self.random.between(MAX_HELD - 2, MAX_HELD + 20);
        while self.accepted < edits {
            match self.random.below(12) {
                0..=5 => self.add_absent(),
                6..=7 => self.remove_present(),
                8 => {
                    let record = self.any_record();
                    self.edit(Call::Lock(record));
                }
                9 => self.withdraw(),
                10 => self.reinstate(),
                _ => self.unlock(),
            }
        }
        for _ in 0..self.random.between(257, 280) {
            self.edit(Call::Undo);
            if self.random.chance(5) {
                self.pairs();
            }
            if self.random.chance(20) {
                self.total();
            }
        }
    }

    /// A ring, and questions whose chains go around it many times.
    fn ring(&mut self) {
        let n = self.random.pick(&[3, 8, 31, 61, 63, 64]);
        let label = self.random.label();
        self.ask(Request::Open(n));
        for from in 0..n {
            self.edit(Call::Add(Link { from, label, to: (from + 1) % n }));
        }
        for _ in 0..4 {
            let letters = self.random.pick(&[n as usize - 1, n as usize, 4, 60, 62, 63]).min(63);
            let round = vec![b'a' + label as u8; letters].chunks(1).collect::<Vec<_>>().join(&b'/');
            let inverse = self.random.pick(&["^", ""]).as_bytes();
            let after = self.random.pick(&["+", "*", "?", ""]).as_bytes();
            let text = [inverse, b"(", &round, b")", after].concat();
            let (from, to) = (self.record(), self.record());
            self.ask(Request::Chain(from, to, text.clone()));
            self.ask(Request::Pairs(text));
        }
    }

    /// A register with as many links as may be present, and edits and questions over it.
    fn fill(&mut self) {
        let n = self.random.pick(&[13, 14, 20, 64]);
        self.ask(Request::Open(n));
        self.labels = (0..LABELS).collect();
        while self.links() < MAX_LINKS {
            let link = self.absent_link();
            self.edit(Call::Add(link));
        }
        for _ in 0..60 {
            let link = self.absent_link();
            self.edit(Call::Add(link));
            match self.random.below(12) {
                0 => self.remove_present(),
                1 => self.edit(Call::Undo),
                2 => self.pairs(),
                3 => self.chain(),
                5..=6 => self.total(),
                4 => {
                    let link = self.link();
                    self.edit(Call::Add(link));
                }
                _ => {}
            }
        }
        self.mixed(100, true);
    }
}
