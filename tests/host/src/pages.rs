//! The printed page: the printer and the reader against the oracle's own, with damaged, cut and lengthened pages.

use crate::engine::Answer;
use crate::history::spaces;
use crate::run::{Run, Size};
use oracle::book::{Book, Call, Link};
use oracle::random::{expression, in_grammar, Random};
use oracle::relation::Relation;
use oracle::{expression as expressions, pages, tree, Listed, Refusal, Space};
use std::time::Instant;

/// What is expected of bytes or pairs in such space.
fn within<T: Clone>(answer: &Result<Vec<T>, Refusal>, work: usize, space: Space) -> Answer<T> {
    let answer = answer.clone().and_then(|words| {
        space.work_at_least(work)?;
        space.listed(words).map(|words| Some(Listed::from(words)))
    });
    answer.map_err(|refusal| refusal.number().into())
}

/// Reads bytes with an exact list, a longer one and a shorter one, and holds it against the oracle.
fn read(run: &mut Run, what: &str, text: &[u8], bytes: &[u8]) {
    let exact = pages::read(text, bytes, usize::MAX).map_or(2, |words| words.len());
    for list in [exact, exact + 7, exact.saturating_sub(1)] {
        let expected = within(&pages::read(text, bytes, list), 0, Space { work: 0, list });
        let answer = run.engine.read_pages(text, bytes, list);
        run.same_of(|| format!("{what} of `{}`, a list of {list}", String::from_utf8_lossy(text)), &answer, &expected);
        run.counts.pages += 1;
    }
}

/// Changes that a reader must see.
fn damaged(run: &mut Run, random: &mut Random, text: &[u8], bytes: &[u8]) {
    for _ in 0..12 {
        let mut other = bytes.to_vec();
        let at = random.below(other.len());
        other[at] = random.pick(&[
            b' ',
            b'0',
            b'1',
            b'9',
            b'+',
            b'-',
            b'\t',
            b'\r',
            b'\n',
            b'a',
            0,
            255,
            other[at] ^ 1,
            other[at] ^ 16,
        ]);
        read(run, "a byte changed", text, &other);
    }
    for cut in [0, 1, 72, 73, 74, bytes.len() - 1, bytes.len().saturating_sub(73)] {
        read(run, "cut", text, &bytes[..cut.min(bytes.len())]);
    }
    for more in [&b"\n"[..], b" ", &[b' '; 72], b"\r\n", &bytes[..73], &[&[b' '; 72][..], b"\n"].concat()] {
        read(run, "lengthened", text, &[bytes, more].concat());
    }
    // Lines exchanged, left out, and twice.
    let lines: Vec<&[u8]> = bytes.chunks(73).collect();
    let (a, b) = (random.below(lines.len()), random.below(lines.len()));
    let mut other = lines.clone();
    other.swap(a, b);
    read(run, "lines exchanged", text, &other.concat());
    let mut other = lines.clone();
    other.remove(a);
    read(run, "a line left out", text, &other.concat());
    let mut other = lines;
    other.insert(b, other[a]);
    read(run, "a line twice", text, &other.concat());
    read(run, "of another expression", b"a", bytes);
    read(run, "of a faulty expression", b"a**", bytes);
    read(run, "of an expression too long", &[b'a'; 257], bytes);
}

/// A register with random links, its pages in every space, and the pages read.
pub fn printed(run: &mut Run, seed: u64, size: Size) {
    let random = &mut Random::new(seed);
    let n = size.records(random);
    let mut words: Vec<u32> = vec![0; dating::calls::STATE_WORDS];
    run.engine.fresh(n as u16, &mut words);
    let mut book = Book::fresh(n).expect("n is in range");
    for _ in 0..random.below(3 * n as usize + 2) {
        let call = Call::Add(Link { from: random.record(n), label: random.below(3) as u32, to: random.record(n) });
        run.engine.edit(&mut words, call);
        let _ = book.call(call);
    }
    let text = if random.chance(20) { expression(random, &[0, 1, 2]) } else { in_grammar(random, &[0, 1, 2], 40, 3) };
    let read_text = expressions::read(&text);
    let related =
        read_text.as_ref().map_err(|&refusal| refusal).map(|e| Relation::meant(n, book.sheet(), e).pair_words());
    let expected = related.as_ref().map(|words| pages::print(&text, words)).map_err(|&refusal| refusal);
    let length = expected.as_ref().map_or(0, Vec::len);
    for space in spaces(tree::work(n), length) {
        let answer = run.engine.pages(&words, &text, space);
        run.same_of(
            || format!("pages of `{}` in {space:?}", String::from_utf8_lossy(&text)),
            &answer,
            &within(&expected, tree::work(n), space),
        );
        run.counts.pages += 1;
    }
    if let Ok(bytes) = &expected {
        read(run, "pages", &text, bytes);
        damaged(run, random, &text, bytes);
    }
    // Words that are no register's.
    words[0] = 2000;
    let answer = run.engine.pages(&words, &text, Space { work: tree::work(n), list: length });
    run.same("pages of words of no register", &answer, &Err(16));
}

/// The pages of an ascending list of so many pairs.
fn some_pages(random: &mut Random, text: &[u8], count: usize) -> Vec<u8> {
    let mut words: Vec<u32> = Vec::new();
    let mut next = 0;
    for _ in 0..count {
        next += 1 + random.below(300) as u32;
        words.push(next);
    }
    pages::print(text, &words)
}

/// Every byte of some pages changed, one at a time: by a bit, and to bytes that look right.
pub fn every_place(run: &mut Run, seed: u64, _: Size) {
    let random = &mut Random::new(seed);
    let count = [0, 1, 5, 6, 7, 12, 353, 354, 355, 360, 708, 709][seed as usize % 12];
    let text: &[u8] =
        if seed % 3 == 0 { b"a/(b|^c)*" } else { b"(a|b|c|d|e|f|g|h|i|j|k|l|m|n|o|p|q|r|s|t|u|v|w|x|y|z)/a/b/c/d/e/f" };
    let bytes = some_pages(random, text, count);
    read(run, "pages", text, &bytes);
    let list = count + 1;
    let others = [b' ', b'0', b'1', b'9', b'+', b'\n'];
    for at in 0..bytes.len() {
        let mut other = bytes.clone();
        let values: Vec<u8> = if bytes.len() < 1000 { (0..=255).collect() } else { others.to_vec() };
        for value in values {
            other[at] = value;
            let expected = within(&pages::read(text, &other, list), 0, Space { work: 0, list });
            let answer = run.engine.read_pages(text, &other, list);
            run.same_of(|| format!("{count} pairs, byte {at} as {value}"), &answer, &expected);
            run.counts.pages += 1;
        }
    }
}

/// Prints how long printing and reading take, beside the oracle's, which are plain programs. The printer's time has the question in it.
fn speed(run: &mut Run, words: &[u32], text: &[u8], all: &[u32], bytes: &[u8]) {
    fn timed<T>(call: impl FnOnce() -> T) -> (T, f64) {
        let start = Instant::now();
        let answer = call();
        (answer, start.elapsed().as_secs_f64() * 1e3)
    }
    let (mut work, mut space, mut list) = (vec![0; tree::work(1024)], vec![0; bytes.len()], vec![0; all.len()]);
    let (asked, question) = timed(|| dating::calls::pairs(words, text, &mut work, &mut list));
    let (printed, printing) = timed(|| dating::calls::pages(words, text, &mut work, &mut space));
    let (found, reading) = timed(|| dating::calls::read_pages(text, &space, &mut list));
    let (plain, plain_printing) = timed(|| pages::print(text, all));
    let (plain_found, plain_reading) = timed(|| pages::read(text, &plain, all.len()));
    run.same(
        "a million pairs timed",
        &(asked, printed, found),
        &(all.len() as u64, bytes.len() as u64, all.len() as u64),
    );
    run.same("and by the plain program", &(plain == space, plain_found.as_deref() == Ok(&list[..])), &(true, true));
    println!(
        "a million pairs, ms: the question {question:.0}, printed {printing:.0} with the question in it, read {reading:.0}; \
         a plain program prints {plain_printing:.0}, reads {plain_reading:.0}"
    );
}

/// Every pair of 1,024 records: 12,973,998 bytes.
pub fn million(run: &mut Run, _: u64, _: Size) {
    let n = 1024;
    let mut words: Vec<u32> = vec![0; dating::calls::STATE_WORDS];
    run.engine.fresh(n as u16, &mut words);
    for from in 0..n {
        run.engine.edit(&mut words, Call::Add(Link { from, label: 0, to: (from + 1) % n }));
    }
    let text = b"a*";
    let all: Vec<u32> = (0..n * n).collect();
    let bytes = pages::print(text, &all);
    run.same("bytes of a million pairs", &bytes.len(), &12_973_998);
    for list in [bytes.len(), bytes.len() - 1] {
        let space = Space { work: tree::work(n), list };
        let answer = run.engine.pages(&words, text, space);
        run.same("pages of a million pairs", &answer, &within(&Ok(bytes.clone()), tree::work(n), space));
        run.counts.pages += 1;
    }
    for list in [all.len(), all.len() - 1] {
        let answer = run.engine.read_pages(text, &bytes, list);
        run.same("a million pairs read", &answer, &within(&Ok(all.clone()), 0, Space { work: 0, list }));
        run.counts.pages += 1;
    }
    speed(run, &words, text, &all, &bytes);
    let mut other = bytes;
    let last = other.len() - 3;
    other[last] ^= 1;
    let answer = run.engine.read_pages(text, &other, all.len());
    run.same("the last figure of a million pairs changed", &answer, &Err(14));
}
