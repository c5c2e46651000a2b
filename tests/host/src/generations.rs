//! Generations of random sheets, with loops and without, in exact space, in less and in more, and of damaged words.

use crate::engine::Engine;
use crate::run::{Run, Size};
use dating::calls;
use oracle::book::{Book, Call, Link};
use oracle::generations::{generations as expected, Generations};
use oracle::random::Random;
use oracle::{Listed, Space};

/// The answer, or the number of the refusal; a count above the list is a fault, and told as none.
fn asked(engine: &mut Engine, words: &[u32], labels: &[u8], space: Space) -> Result<Option<Generations>, u32> {
    let mut looped = false;
    let answer = engine.asked(words, labels, space, |state, labels, work, list| {
        let told = calls::generations(state, labels, work, list);
        looped = (calls::LOOP..calls::REFUSED).contains(&told);
        if looped {
            told - calls::LOOP
        } else {
            told
        }
    })?;
    Ok(answer.filter(|Listed { total, words }| *total == words.len()).map(|Listed { words, .. }| {
        if looped {
            Generations::Loop(words)
        } else {
            Generations::Numbers(words)
        }
    }))
}

/// A sheet made by calls: links from earlier to later records of a random order, so that there is no loop, some withdrawn records, and then, for every
/// second seed, some links against that order.
fn sheet(run: &mut Run, random: &mut Random, n: u32, loops: bool) -> (Book, Vec<u32>) {
    let mut words = vec![0; calls::STATE_WORDS];
    run.engine.fresh(n as u16, &mut words);
    let mut book = Book::fresh(n).expect("n in range");
    let mut order: Vec<u32> = (0..n).collect();
    for at in (1..order.len()).rev() {
        order.swap(at, random.below(at + 1));
    }
    let labels = random.between(1, 26) as u32;
    // The engine goes deepest where all records are one run that ends at record 0.
    let deep = random.chance(20);
    if deep {
        order = (0..n).rev().collect();
    }
    let most = random.pick(&[n as usize / 2, 2 * n as usize, 4 * n as usize, 4096]).min(4096);
    let mut calls = Vec::new();
    if deep {
        calls.extend(order.windows(2).map(|ends| Call::Add(Link { from: ends[0], label: 0, to: ends[1] })));
    }
    for _ in 0..most {
        let (first, second) = (random.below(n as usize), random.below(n as usize));
        // Some sheets are one long run, others wide.
        let second = if random.chance(40) { first + 1 } else { second };
        if first < second && second < n as usize {
            calls.push(Call::Add(Link { from: order[first], label: random.word() as u32 % labels, to: order[second] }));
        }
    }
    for _ in 0..random.below(1 + n as usize / 8) {
        calls.push(Call::Withdraw(random.record(n)));
    }
    if loops {
        for _ in 0..random.between(1, 4) {
            let link = Link { from: random.record(n), label: random.word() as u32 % labels, to: random.record(n) };
            calls.push(Call::Add(link));
        }
    }
    for call in calls {
        let expected = book.call(call).map_or_else(|cause| u32::from(cause.number()), |()| 0);
        let answer = run.engine.edit(&mut words, call);
        run.counts.edits += 1;
        run.same_of(|| format!("{call:?}"), &answer, &expected);
    }
    (book, words)
}

/// Labels in any order, with repeats; now and then none, all, many, or one above 25.
fn labels(random: &mut Random) -> Vec<u8> {
    let count = random.pick(&[0, 1, 2, 3, 5, 26, 60, 1000]);
    let mut labels: Vec<u8> = (0..count).map(|_| random.below(26) as u8).collect();
    if random.chance(20) {
        labels = (0..26).rev().collect();
    }
    if random.chance(8) {
        let at = random.below(labels.len() + 1);
        labels.insert(at, random.pick(&[26, 27, 97, 255]));
    }
    labels
}

pub fn generations(run: &mut Run, seed: u64, size: Size) {
    let random = &mut Random::new(seed.wrapping_mul(0x9e37_79b9).wrapping_add(106));
    let n = size.records(random);
    let (book, words) = sheet(run, random, n, seed % 2 == 1);
    for _ in 0..3 {
        let labels = labels(random);
        let work = 64 * n as usize;
        let length = match expected(&book, &labels, Space::AMPLE) {
            Ok(Generations::Numbers(words) | Generations::Loop(words)) => words.len(),
            Err(_) => n as usize,
        };
        let spaces = [(work, length), (work - 1, length), (work, length.saturating_sub(1)), (work + 7, length + 50), (0, 0)];
        for (work, list) in spaces {
            let space = Space { work, list };
            let expected = expected(&book, &labels, space).map(Some).map_err(|cause| u32::from(cause.number()));
            let answer = asked(&mut run.engine, &words, &labels, space);
            run.counts.generations += 1;
            run.same_of(|| format!("generations of n {n}, labels {labels:?}, {space:?}"), &answer, &expected);
        }
    }
}

/// Words that no call made: an answer that fits its list, or the number of a cause.
pub fn damaged(run: &mut Run, seed: u64, size: Size) {
    let random = &mut Random::new(!seed);
    let n = size.records(random);
    let (_, mut words) = sheet(run, random, n, seed % 2 == 1);
    for _ in 0..random.between(1, 60) {
        let at = 4 + random.below(5402);
        let word = random.word() as u32;
        words[at] = random.pick(&[word, word % (1 << 25), word % 3]);
    }
    let count = random.below(4097) as u32;
    words[1] = random.pick(&[words[1], 4096, count]);
    for list in [0, 5, 1024, 5000] {
        let labels = labels(random);
        let answer = asked(&mut run.engine, &words, &labels, Space { work: 65536, list });
        run.counts.generations += 1;
        run.same_of(|| format!("generations of damaged words, labels {labels:?}: {answer:?}"), &(answer != Ok(None)), &true);
    }
}
