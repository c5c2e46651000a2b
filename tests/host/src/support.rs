//! Random registers, with locks and withdrawn records, asked which records fall with a core.

use crate::history::spaces;
use crate::run::{Run, Size};
use oracle::book::{Book, Call, Link};
use oracle::random::{expression, in_grammar, Random};
use oracle::support::{fallen, fallen_by_chains, within, work};
use oracle::Listed;

/// A book with its words, each edit made in both.
struct Made {
    book: Book,
    words: Vec<u32>,
}

impl Made {
    fn fresh(run: &mut Run, n: u32) -> Made {
        let mut words = vec![0; dating::calls::STATE_WORDS];
        let answer = run.engine.fresh(n as u16, &mut words);
        run.same("fresh", &answer, &0);
        Made { book: Book::fresh(n).expect("n is in range"), words }
    }

    fn edit(&mut self, run: &mut Run, call: Call) {
        let expected = self.book.call(call).err().map_or(0, |refusal| u32::from(refusal.number()));
        let answer = run.engine.edit(&mut self.words, call);
        run.same_of(|| format!("{call:?}"), &answer, &expected);
    }
}

/// Links, many of them at the core, then locks at some of its neighbours and elsewhere, and some records withdrawn.
fn made(run: &mut Run, random: &mut Random, n: u32, core: u32, labels: &[u32]) -> Made {
    let mut made = Made::fresh(run, n);
    let (links, share) = (random.below(3 * n as usize + 1).min(4000), random.pick(&[0, 20, 60, 100]));
    for _ in 0..links {
        let (mut from, mut to) = (random.record(n), random.record(n));
        if random.chance(share) {
            (from, to) = random.pick(&[(core, to), (from, core)]);
        }
        made.edit(run, Call::Add(Link { from, label: random.pick(labels), to }));
    }
    for _ in 0..random.below(n as usize + 1).min(60) {
        let record = if random.chance(10) { core } else { random.record(n) };
        made.edit(run, random.pick(&[Call::Lock(record), Call::Lock(record), Call::Withdraw(record)]));
    }
    made
}

/// Anchors: mostly ascending and below n, some of them withdrawn; now and then the core, one too large, out of order, or twice.
fn anchors(random: &mut Random, n: u32, core: u32) -> Vec<u32> {
    let count = random.pick(&[0, 1, 1, 2, 3, 10, n as usize]);
    let mut anchors: Vec<u32> = (0..count).map(|_| random.record(n)).collect();
    if random.chance(20) {
        anchors.push(core);
    }
    anchors.sort();
    anchors.dedup();
    match random.below(12) {
        0 => anchors.push(random.pick(&[n, n + 1, 1023, 1024, 65535])),
        1 => anchors.reverse(),
        2 => anchors.extend(anchors.last().copied()),
        3 => anchors.extend(anchors.first().copied()),
        _ => {}
    }
    anchors
}

pub fn support(run: &mut Run, seed: u64, size: Size) {
    let random = &mut Random::new(seed);
    let n = size.records(random);
    let mut core = random.record(n);
    let labels: Vec<u32> = (0..random.between(1, 3)).map(|_| random.label()).collect();
    let made = made(run, random, n, core, &labels);
    if random.chance(5) {
        core = random.pick(&[n, 1024, 65535]);
    }
    for _ in 0..3 {
        let text = if random.chance(15) {
            expression(random, &labels)
        } else {
            let letters = random.between(1, 5);
            in_grammar(random, &labels, letters, 2)
        };
        let anchors = anchors(random, n, core);
        let expected = fallen(&made.book, core, &text, &anchors);
        if n <= 24 {
            run.same("two readings of the oracle", &fallen_by_chains(&made.book, core, &text, &anchors), &expected);
        }
        let lent: Vec<u16> = anchors.iter().map(|&anchor| anchor as u16).collect();
        for space in spaces(work(n), expected.as_ref().map_or(0, Vec::len)) {
            let answer = run.engine.sole_support(&made.words, core, &text, &lent, space);
            let expected = within(n, &expected, space)
                .map(|words| Some(Listed::from(words)))
                .map_err(|refusal| refusal.number().into());
            let asked =
                || format!("sole support of {core}, `{}` to {anchors:?} in {space:?}", String::from_utf8_lossy(&text));
            run.same_of(asked, &answer, &expected);
            run.counts.supports += 1;
            run.counts.fallen += answer.ok().flatten().map_or(0, |fallen| fallen.total);
        }
    }
}
