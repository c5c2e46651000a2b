//! Words that no call made: every call must end, keep to what it was lent, and answer in the form that is promised.

use crate::history::History;
use crate::run::{Run, Size};
use oracle::book::{Call, Link};
use oracle::random::{in_grammar, Random};
use oracle::{rows, tree, Space};

const N: usize = 0;
const LINKS: usize = 4;
const RING: usize = LINKS + 4096;
const MARKS: usize = RING + 256;
const TOTALS: usize = MARKS + 1024;
const WORDS: usize = TOTALS + 26;

fn any(random: &mut Random) -> u32 {
    let word = random.word() as u32;
    match random.below(6) {
        0 => {
            random.pick(&[0, 1, 2, 255, 256, 257, 1023, 1024, 1025, 4095, 4096, 4097, 65535, 65536, 1 << 31, u32::MAX])
        }
        1 => word % 1025,
        2 => word % 4098,
        3 => word % (1 << 26),
        _ => word,
    }
}

fn damage(random: &mut Random, words: &mut Vec<u32>) {
    for _ in 0..random.between(1, 4) {
        let at = match random.below(6) {
            0 => random.below(LINKS),
            1 => random.between(LINKS, LINKS + 40),
            2 => random.between(LINKS, RING - 1),
            3 => random.between(RING, MARKS - 1),
            4 => random.between(TOTALS, words.len() - 1),
            _ => random.between(MARKS, words.len() - 1),
        };
        words[at] = if at < MARKS || at >= TOTALS || random.chance(20) { any(random) } else { random.below(3) as u32 };
    }
    match random.below(14) {
        0 => words[LINKS..RING].iter_mut().for_each(|word| *word = any(random)),
        1 => words[RING..MARKS].iter_mut().for_each(|word| *word = any(random)),
        2 => words.iter_mut().for_each(|word| *word = any(random)),
        3 => words.truncate(random.below(WORDS)),
        4 => words.resize(random.between(WORDS + 1, 6000), 0),
        5 => words[1] = 4096,
        6 => words[3] = 256,
        7 => words[TOTALS..WORDS].fill(u32::MAX),
        8 => words[TOTALS..WORDS].fill(0),
        9 => words.truncate(TOTALS),
        _ => {}
    }
}

/// Whether the front of these could be the words of a register: enough of them, counters in range, marks 0 to 2. If not, the answer is 16.
fn possible(words: &[u32]) -> bool {
    words.len() >= WORDS
        && (words[N] <= 1024 && words[1] <= 4096 && words[2] < 256 && words[3] <= 256)
        && words[MARKS..TOTALS].iter().all(|&word| word <= 2)
}

pub fn damaged(run: &mut Run, seed: u64, size: Size) {
    let mut history = History::fresh(run, seed, size);
    history.some();
    let made = std::mem::take(&mut history.words);
    let random = &mut Random::new(!seed);
    let mut words = made.clone();
    damage(random, &mut words);
    let n = size.records(random);
    for _ in 0..random.between(1, 30) {
        let mut record = || if random.chance(90) { random.record(n) } else { random.word() as u32 % 65536 };
        let link = Link { from: record(), label: 0, to: record() };
        let link = Link { label: random.below(27) as u32, ..link };
        let call = match random.below(8) {
            0..=1 => Call::Undo,
            2 => Call::Add(link),
            3 => Call::Remove(link),
            4 => Call::Lock(link.from),
            5 => Call::Unlock(link.from),
            6 => Call::Withdraw(link.from),
            _ => Call::Reinstate(link.from),
        };
        let refused = !possible(&words);
        let answer = run.engine.edit(&mut words, call);
        if refused {
            run.same_of(|| format!("{call:?} on words of no register"), &answer, &16);
        }
    }
    let refused = !possible(&words);
    let draft: Vec<u64> = (0..random.below(6)).map(|_| random.pick(&[2, 3, 4, 5, 6, 10, 12]) << 40 | random.word() % (1 << 34)).collect();
    let answer = run.engine.apply_all(&mut words, &draft);
    if refused {
        run.same("a list on words of no register", &answer, &Err((0, 16)));
    }
    for room in [0, 3, 1024, 1500] {
        let refused = !possible(&words);
        let answer = run.engine.close_up(&mut words, room);
        if refused {
            run.same("closing up words of no register", &answer, &Err(16));
        }
    }
    let possible = possible(&words);
    let text = in_grammar(random, &[0, 1, 25], 4, 2);
    let sized = run.engine.size(&words);
    run.same_of(|| format!("size {sized} is at most 1,024"), &(sized <= 1024), &true);
    if !possible {
        run.same("size of words of no register", &sized, &0);
    }
    let sized = sized.clamp(1, 1024);
    for list in [0, 3, 5000] {
        let spaces = [(tree::work(sized), 64 * sized as usize), (tree::work(sized) - 1, 64 * sized as usize - 1)];
        for (pairs, chains) in spaces {
            let (from, to) = (random.record(sized), random.record(sized));
            let answers = [
                run.engine.links(&words, list),
                run.engine.totals(&words, list),
                run.engine.marks(&words, list),
                run.engine.pairs(&words, &text, Space { work: pairs, list }),
                run.engine.pairs_by_rows(&words, &text, Space { work: pairs.min(rows::work(sized)), list }),
                run.engine.chain(&words, from, to, &text, Space { work: chains, list }),
                run.engine.ends(&words, from, &text, list),
                run.engine.starts(&words, to, &text, list),
                run.engine.sole_support(&words, from, &text, &[to as u16], Space { work: pairs + chains, list }),
            ];
            let edit = (random.pick(&[2, 3, 4, 5, 6, 10, 11]), from as u16, random.below(27) as u8, to as u16);
            let preview = run.engine.preview(&words, edit, &text, Space { work: pairs, list });
            let unknown = run.engine.preview(&words, (12, edit.1, edit.2, edit.3), &text, Space { work: pairs, list });
            run.same("a preview of an unknown kind", &unknown, &Err(15));
            for answer in answers.into_iter().chain([preview]) {
                if !possible {
                    run.same("a question of words of no register", &answer, &Err(16));
                }
            }
        }
    }
    let locked = run.engine.locked(&words, random.record(n) as u16);
    let withdrawn = run.engine.withdrawn(&words, random.record(n) as u16);
    if !possible {
        run.same("whether a record of no register is locked", &locked, &0);
        run.same("whether a record of no register is withdrawn", &withdrawn, &0);
    }
    for label in [0, random.label() as u8, 25, 26, 255] {
        let total = run.engine.total(&words, label);
        if !possible {
            run.same("a total of words of no register", &total, &Err(16));
        } else if label > 25 {
            run.same("a total of no label", &total, &Err(3));
        } else {
            run.same("whether a total of other words is told", &total.is_ok(), &true);
        }
    }
    run.counts.damaged += 1;
}
