//! Offsets known within limits, through the exported call, against Floyd and Warshall: exact spaces, one word short, longer
//! lists, ties near ± 20,000, contradictions at the base and away from it, each refusal with its cause in an early or a late tie.

use crate::lent::{Lender, Word};
use crate::run::{Run, Size};
use dating::{calls, Tie};
use oracle::offsets::{self, Answer};
use oracle::random::Random;
use std::cell::RefCell;

const RINGS: i32 = 20_000;

impl Word for i32 {
    const BEFORE: i32 = 0x27b3_c5d9;
    fn of(number: u64) -> i32 {
        number as i32
    }
}

impl Word for i64 {
    const BEFORE: i64 = 0x27b3_c5d9_e1f3_0517;
    fn of(number: u64) -> i64 {
        number as i64
    }
}

impl Word for Tie {
    const BEFORE: Tie = Tie { first: 7, second: 9, least: 0x27b3, most: 0x5d9 };
    fn of(number: u64) -> Tie {
        Tie { first: number as u16, second: (number >> 16) as u16, least: (number >> 32) as i32, most: number as i32 }
    }
}

/// What is lent.
struct Space {
    state: Lender<u32>,
    ties: Lender<Tie>,
    work: Lender<i64>,
    list: Lender<i32>,
}

thread_local! {
    static SPACE: RefCell<Space> = RefCell::new(Space {
        state: Lender::guarded(8192),
        ties: Lender::guarded(2048),
        work: Lender::guarded(70_000),
        list: Lender::guarded(4096),
    });
}

/// Ties around a hidden placing, so that they can hold, unless one is spoiled.
fn ties(random: &mut Random, n: usize, count: usize) -> Vec<Tie> {
    let wide = random.pick(&[30, 2_000, 12_000]);
    let years: Vec<i32> = (0..n).map(|_| random.below(wide) as i32).collect();
    let near = random.chance(30);
    let mut made: Vec<Tie> = (0..count)
        .map(|_| {
            let (first, second) = (random.below(n), random.below(n));
            let offset = years[second] - years[first];
            let slack = random.pick(&[0, 1, 7, 500]);
            let (mut least, mut most) = (offset - random.below(slack + 1) as i32, offset + random.below(slack + 1) as i32);
            if near && random.chance(50) {
                (least, most) = (-RINGS, random.pick(&[RINGS, RINGS - 1]));
            }
            Tie { first: first as u16, second: second as u16, least: least.max(-RINGS), most: most.min(RINGS) }
        })
        .collect();
    if count > 0 && random.chance(35) {
        let at = random.below(count);
        let tie = &mut made[at];
        (tie.least, tie.most) = random.pick(&[(RINGS, RINGS), (-RINGS, -RINGS), (tie.most, tie.most), (1, 1), (tie.least + 1, RINGS)]);
        tie.most = tie.most.max(tie.least);
    }
    made
}

/// Spoils one tie, early or late, or the number of them.
fn spoil(random: &mut Random, n: usize, withdrawn: &[usize], made: &mut Vec<Tie>) {
    if made.is_empty() {
        return;
    }
    let at = random.pick(&[0, made.len() / 2, made.len() - 1]);
    let tie = &mut made[at];
    match random.below(6) {
        0 => tie.first = random.pick(&[n as u16, u16::MAX, 1024]),
        1 => tie.second = random.pick(&[n as u16, n as u16 + 1]),
        2 => tie.least = random.pick(&[-RINGS - 1, i32::MIN]),
        3 => tie.most = random.pick(&[RINGS + 1, i32::MAX]),
        4 => (tie.least, tie.most) = (tie.most + 1, tie.most),
        _ if !withdrawn.is_empty() => tie.second = random.pick(withdrawn) as u16,
        _ => (tie.least, tie.most) = (RINGS, RINGS - 1),
    }
}

/// One register, asked a few times.
pub fn offsets(run: &mut Run, seed: u64, size: Size) {
    let random = &mut Random::new(seed ^ 0x0ff5_e75);
    let n = size.records(random);
    let mut state = vec![0; calls::STATE_WORDS];
    assert_eq!(calls::fresh(n as u16, &mut state), 0);
    let withdrawn: Vec<usize> = (0..random.below(4)).map(|_| random.below(n as usize)).collect();
    for &record in &withdrawn {
        calls::withdraw(&mut state, record as u16);
    }
    let used: Vec<usize> = (0..n as usize).filter(|record| !withdrawn.contains(record)).collect();
    let foreign = random.chance(4);
    if foreign {
        state[0] = 2000;
    }
    let few = random.below(2 * n as usize + 2);
    let count = random.pick(&[0, 1, few, 1024]).min(1024);
    let mut made = ties(random, n as usize, count);
    if !used.is_empty() && random.chance(85) {
        for tie in &mut made {
            for record in [&mut tie.first, &mut tie.second] {
                if withdrawn.contains(&usize::from(*record)) {
                    *record = used[usize::from(*record) % used.len()] as u16;
                }
            }
        }
    }
    if random.chance(25) {
        spoil(random, n as usize, &withdrawn, &mut made);
    }
    if random.chance(25) {
        spoil(random, n as usize, &withdrawn, &mut made);
    }
    if random.chance(5) {
        made.resize(1025, Tie { first: 0, second: 0, least: 0, most: 0 });
    }
    let base = if random.chance(90) { random.below(n as usize) } else { random.pick(&[n as usize, 65535]) } as u16;
    let (work, list) = (64 * n as usize, 2 * n as usize);
    let work = random.pick(&[work, work, work, work + 5, work.saturating_sub(1), 0]);
    let list = random.pick(&[list, list, list + 9, list.saturating_sub(1), 0]);
    let plain: Vec<offsets::Tie> = made
        .iter()
        .map(|tie| offsets::Tie { first: tie.first.into(), second: tie.second.into(), least: tie.least.into(), most: tie.most.into() })
        .collect();
    let expected = offsets::offsets(n, &|record| withdrawn.contains(&(record as usize)), base.into(), &plain, work, list);
    let (answer, kept) = SPACE.with(|space| ask(&mut space.borrow_mut(), &state, base, &made, work, list));
    run.counts.offsets += 1;
    run.engine.calls += 1;
    let told = match expected {
        _ if foreign => (calls::REFUSED + 16, None),
        Answer::Refused(cause) => (calls::REFUSED + cause as u64, None),
        Answer::CannotHold => (calls::CANNOT_HOLD, None),
        Answer::Limits(words) => (words.len() as u64, Some(words)),
    };
    run.same("offsets", &answer, &told);
    run.same("what is kept to", &kept, &true);
}

/// What the call answered with the words it wrote, and whether it kept to what it was lent and left what it must leave.
fn ask(space: &mut Space, state: &[u32], base: u16, made: &[Tie], work: usize, list: usize) -> ((u64, Option<Vec<i64>>), bool) {
    let Space { state: words, ties, work: works, list: lists } = space;
    let before: Vec<i32> = (0..list).map(|at| (at as i32).wrapping_mul(0x5d9b_3c17)).collect();
    let (words_lent, ties_lent) = (words.lend_words(state), ties.lend_words(made));
    let (work_lent, list_lent) = (works.lend(work), lists.lend_words(&before));
    let answer = calls::offsets(words_lent, base, ties_lent, work_lent, list_lent);
    let written = if answer < calls::CANNOT_HOLD { answer as usize } else { 0 };
    let kept = words_lent == state && ties_lent == made && written <= list && list_lent[written.min(list)..] == before[written.min(list)..];
    let told = (answer < calls::CANNOT_HOLD).then(|| list_lent[..written.min(list)].iter().map(|&word| i64::from(word)).collect());
    ((answer, told), kept && words.intact() && ties.intact() && works.intact() && lists.intact())
}
