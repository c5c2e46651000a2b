//! The tree calls against plain sets of pairs, damaged trees, lent space that is too short, and the order of refusals. Every call is made on a
//! thread with 512 KB of stack, and every list is watched on both sides and past its answer.

use std::sync::atomic::{AtomicUsize, Ordering};
use std::thread::Builder;
use tree::engine::{self, Answer, Inner, One, Two, ONES, TWOS};
use tree::lent::Lent;
use tree::plain::{set_of_tree, side, unit, Set};
use tree::random::Random;

const SIZES: [usize; 14] = [1, 2, 3, 4, 5, 31, 32, 33, 63, 64, 65, 200, 1023, 1024];
const STACK: usize = 512 * 1024;
const MARK: u64 = 0xa5a5_a5a5_a5a5_a5a5;

static CASES: AtomicUsize = AtomicUsize::new(0);

/// The body of a test, on a thread with a small stack; prints how many cases it has.
fn on_small_stack(name: &str, body: fn()) {
    CASES.store(0, Ordering::Relaxed);
    Builder::new().stack_size(STACK).spawn(body).unwrap().join().unwrap();
    println!("{name}: {} cases", CASES.load(Ordering::Relaxed));
}

/// A generator of a fixed seed; or of another, if SEED is in the environment.
fn draws(fixed: u64) -> Random {
    Random(std::env::var("SEED").map_or(0, |seed| seed.parse::<u64>().expect("SEED is a number")).wrapping_add(fixed))
}

fn case() {
    CASES.fetch_add(1, Ordering::Relaxed);
}

/// A public call, with what it is asked of.
#[derive(Clone, Debug)]
enum Call {
    Make(Vec<u32>),
    List(Vec<u64>),
    One(One, Vec<u64>),
    Two(Two, Vec<u64>, Vec<u64>),
}

/// What a call wrote: words of a tree; or the number of pairs in all, and those written.
#[derive(Debug, PartialEq)]
enum Got {
    Tree(Vec<u64>),
    Pairs(usize, Vec<u32>),
}

/// Makes a call with so many words of work and of list. A refusal has written nothing but work, an answer nothing past itself.
fn run(n: usize, call: &Call, work: usize, list: usize) -> Result<Got, u64> {
    case();
    let mut lent_work = Lent::new(work, MARK);
    let got = if let Call::List(a) = call {
        let mut out = Lent::new(list, MARK as u32);
        let answer = engine::list(n, a, out.get(), lent_work.get());
        let written = watched(&out, answer.map(|total| total.min(list)));
        written.map(|pairs| Got::Pairs(answer.unwrap_or(0), pairs.to_vec()))
    } else {
        let mut out = Lent::new(list, MARK);
        let answer = match call {
            Call::Make(pairs) => engine::make(n, pairs, out.get(), lent_work.get()),
            Call::One(op, a) => engine::one(*op, n, a, out.get(), lent_work.get()),
            Call::Two(op, a, b) => engine::two(*op, n, a, b, out.get(), lent_work.get()),
            Call::List(_) => unreachable!(),
        };
        watched(&out, answer).map(|words| Got::Tree(words.to_vec()))
    };
    assert!(lent_work.kept_around(), "words beside the work were written: {n} {call:?}");
    got
}

fn watched<T: Copy + PartialEq>(out: &Lent<T>, answer: Answer) -> Result<&[T], u64> {
    let written = out.written(answer.unwrap_or(0)).expect("words past the answer were written");
    answer.map(|_| written)
}

fn on_one(op: One, a: &Set) -> Set {
    match op {
        One::Transpose => a.transpose(),
        One::Closure => a.closure(),
    }
}

fn on_two(op: Two, a: &Set, b: &Set) -> Set {
    match op {
        Two::Union => a.union(b),
        Two::Intersection => a.intersection(b),
        Two::Difference => a.difference(b),
        Two::Product { sense, other } => turned(sense, a).product(&turned(other, b)),
    }
}

/// A set as it is read with a sense.
fn turned(sense: u8, set: &Set) -> Set {
    if sense == 0 {
        set.clone()
    } else {
        set.transpose()
    }
}

/// What a call must give if all it is lent is long enough: by plain sets, and by the plain test of trees.
fn expected(n: usize, call: &Call) -> Result<Got, u64> {
    let set = |tree: &[u64]| set_of_tree(n, tree).ok_or(11_u64);
    match call {
        Call::Make(pairs) => {
            let mut made = Set::empty(n);
            for &p in pairs {
                let (x, y) = (p as usize / 1024, p as usize % 1024);
                if x >= n || y >= n {
                    return Err(2);
                }
                made.put(x, y);
            }
            Ok(Got::Tree(made.tree()))
        }
        Call::List(a) => {
            let pairs = set(a)?.list();
            Ok(Got::Pairs(pairs.len(), pairs))
        }
        Call::One(op, a) => Ok(Got::Tree(on_one(*op, &set(a)?).tree())),
        Call::Two(op, a, b) => Ok(Got::Tree(on_two(*op, &set(a)?, &set(b)?).tree())),
    }
}

/// So many words or pairs as a call may ever write, and a few more.
fn enough(n: usize, call: &Call) -> usize {
    3 + if matches!(call, Call::List(_)) { n * n } else { unit(n) }
}

fn check(n: usize, call: &Call) {
    let got = run(n, call, 32 * unit(n), enough(n, call));
    assert!(got == expected(n, call), "n = {n}, {call:?}: {got:?}");
}

/// Sets of each shape.
fn shapes(n: usize, random: &mut Random) -> Vec<Set> {
    let (row, column) = (random.below(n), random.below(n));
    let mut shapes = vec![
        Set::empty(n),
        Set::of(n, |x, y| x == 0 && y == 0),
        Set::of(n, |x, y| x == n - 1 && y == n - 1),
        Set::of(n, |x, y| x == row && y == column),
        Set::of(n, |x, y| x == y),
        Set::of(n, |x, y| (x + 1) % n == y),
        Set::of(n, |x, _| x == row),
        Set::of(n, |_, y| y == column),
        Set::of(n, |x, y| x < y),
        Set::of(n, |_, _| true),
    ];
    shapes.extend([n / 2, n, 130].map(|count| random.pairs(n, count)));
    shapes.extend([5, 50, 95].map(|percent| random.dense(n, percent)));
    shapes
}

fn check_pair(n: usize, a: &Set, b: &Set, random: &mut Random) {
    check(n, &Call::Make(random.listed(a)));
    let (s, t) = (a.tree(), b.tree());
    assert_eq!(set_of_tree(n, &s).as_ref(), Some(a));
    check(n, &Call::List(s.clone()));
    for op in ONES {
        check(n, &Call::One(op, s.clone()));
    }
    for op in TWOS {
        check(n, &Call::Two(op, s.clone(), t.clone()));
    }
    check_inner(n, a, b, random);
}

fn check_inner(n: usize, a: &Set, b: &Set, random: &mut Random) {
    let (sense, other) = (random.below(2) as u8, random.below(2) as u8);
    let on_both = [
        (Inner::Union, a.union(b)),
        (Inner::Intersection, a.intersection(b)),
        (Inner::Difference, a.difference(b)),
        (Inner::Product { sense, other }, turned(sense, a).product(&turned(other, b))),
    ];
    let on_first = [(Inner::Transpose, a.transpose()), (Inner::Closure, a.closure()), (Inner::Identity, a.with_identity())];
    let (s, t) = (a.tree(), b.tree());
    // two D are enough
    let mut work = Lent::new(2 * unit(n), MARK);
    for (op, set, second) in
        on_both.iter().map(|(op, set)| (op, set, &t[..])).chain(on_first.iter().map(|(op, set)| (op, set, &[][..])))
    {
        case();
        work.get()[..s.len()].copy_from_slice(&s);
        work.get()[s.len()..s.len() + second.len()].copy_from_slice(second);
        let len = engine::inner(*op, work.get(), n, s.len(), second.len());
        assert!(work.kept_around());
        assert!(work.get()[..len] == set.tree(), "n = {n}, {op:?}");
    }
    case();
    let links: Vec<u32> = random.listed(a).iter().map(|&p| p + (random.below(26) << 20) as u32).collect();
    let len = engine::letter(work.get(), n, &links);
    assert!(work.kept_around());
    assert!(work.get()[..len] == s[..], "n = {n}, letter");
}

/// The most records of the random sets: those of a full sheet take long, and are left out if QUICK is in the environment.
fn most() -> usize {
    if std::env::var_os("QUICK").is_some() {
        200
    } else {
        1024
    }
}

#[test]
fn random_sets() {
    on_small_stack("random sets", || {
        let mut random = draws(1);
        for n in SIZES.into_iter().filter(|&n| n <= most()) {
            let sets = shapes(n, &mut random);
            // each with some others
            for (i, a) in sets.iter().enumerate() {
                let others = if n <= 65 { 8 } else { 1 };
                for k in 0..others {
                    check_pair(n, a, &sets[(i + k + random.below(sets.len())) % sets.len()], &mut random);
                }
            }
        }
    });
}

#[test]
fn all_sets_of_one_and_two_records() {
    on_small_stack("all sets of one and two records", || {
        let mut random = draws(2);
        for n in [1, 2] {
            let sets: Vec<Set> = (0..1 << (n * n)).map(|bits: u32| Set::of(n, |x, y| bits >> (x * n + y) & 1 == 1)).collect();
            for a in &sets {
                for b in &sets {
                    check_pair(n, a, b, &mut random);
                }
            }
        }
    });
}

/// Words that may be no tree, lent to every sort of call, at every place.
fn check_lent(n: usize, words: &[u64], good: &[u64], random: &mut Random) {
    check(n, &Call::List(words.to_vec()));
    check(n, &Call::One(ONES[random.below(2)], words.to_vec()));
    let op = TWOS[random.below(TWOS.len())];
    check(n, &Call::Two(op, words.to_vec(), good.to_vec()));
    check(n, &Call::Two(op, good.to_vec(), words.to_vec()));
}

/// Each word with each bit flipped, a word more and a word less.
fn damage(n: usize, tree: &[u64], bits: impl Iterator<Item = usize>, random: &mut Random) {
    for bit in bits {
        let mut words = tree.to_vec();
        words[bit / 64] ^= 1 << (bit % 64);
        check_lent(n, &words, tree, random);
    }
    for more in [0, 1, 1 << 63, random.word()] {
        check_lent(n, &[tree, &[more]].concat(), tree, random);
    }
    if !tree.is_empty() {
        check_lent(n, &tree[..tree.len() - 1], tree, random);
        check_lent(n, &tree[1..], tree, random);
    }
    check_lent(n, &vec![u64::MAX; unit(n)], tree, random);
    check_lent(n, &vec![0; unit(n) + 1], tree, random);
}

#[test]
fn damaged_trees() {
    on_small_stack("damaged trees", || {
        let mut random = draws(3);
        for n in SIZES.into_iter().filter(|&n| n <= 65) {
            for a in shapes(n, &mut random) {
                let tree = a.tree();
                let bits = 64 * tree.len();
                let step = 1 + bits / 100;
                damage(n, &tree, (random.below(step)..bits).step_by(step), &mut random);
            }
            // every bit, those past the end too
            let tree = random.pairs(n, 3).tree();
            damage(n, &tree, 0..64 * tree.len(), &mut random);
            for _ in 0..100 {
                let words: Vec<u64> = (0..random.below(4)).map(|_| random.word() & random.word()).collect();
                check_lent(n, &words, &tree, &mut random);
            }
        }
        for n in [200, 1023, 1024] {
            let tree = random.pairs(n, 130).tree();
            let last = 64 * tree.len() - 1;
            let bits: Vec<usize> = (0..30).map(|_| random.below(last)).chain([0, last]).collect();
            damage(n, &tree, bits.into_iter(), &mut random);
        }
    });
}

#[test]
fn pairs_at_or_beyond_n() {
    on_small_stack("pairs at or beyond n", || {
        let mut random = draws(4);
        for n in SIZES.into_iter().filter(|&n| n < side(n)) {
            let good = random.pairs(n, n).tree();
            for (x, y) in [(n, 0), (0, n), (n, n), (n - 1, n), (side(n) - 1, 0), (0, side(n) - 1), (side(n) - 1, side(n) - 1)] {
                let mut wide = Set::of(side(n), |u, v| u == 0 && v == 0);
                wide.put(x, y);
                let words = wide.tree();
                assert!(set_of_tree(n, &words).is_none());
                check_lent(n, &words, &good, &mut random);
            }
        }
        for n in SIZES {
            for word in [n * 1024, n, n * 1024 + n, 1 << 20, u32::MAX as usize] {
                // 1,024 is the pair (1, 0) where n is 1,024
                let pairs = [vec![0; random.below(3)], vec![word as u32]].concat();
                check(n, &Call::Make(pairs));
            }
        }
    });
}

/// A call of each sort on the same two sets.
fn calls(random: &mut Random, a: &Set, b: &Set) -> Vec<Call> {
    let mut calls = vec![Call::Make(random.listed(a)), Call::List(a.tree())];
    calls.extend(ONES.map(|op| Call::One(op, a.tree())));
    calls.extend(TWOS.map(|op| Call::Two(op, a.tree(), b.tree())));
    calls
}

#[test]
fn short_spaces() {
    on_small_stack("short spaces", || {
        let mut random = draws(5);
        for n in SIZES {
            let (a, b) = (random.pairs(n, 2 * n), random.pairs(n, 2 * n));
            for call in calls(&mut random, &a, &b) {
                let work = 32 * unit(n);
                let answer = expected(n, &call);
                let long = match &answer {
                    Ok(Got::Tree(words)) => words.len(),
                    Ok(Got::Pairs(total, _)) => *total,
                    Err(cause) => panic!("{cause}"),
                };
                // a list of pairs may be short: it gets the first of them, and their number
                let short = Some(13).filter(|_| long > 0 && !matches!(call, Call::List(_)));
                for (work, list, cause) in [
                    (work - 1, long, Some(12)),
                    (0, long, Some(12)),
                    (work - 1, 0, Some(12)),
                    (work, long.saturating_sub(1), short),
                    (work, 0, short),
                    (work, long, None),
                    (work + 1, long + 1, None),
                ] {
                    let got = run(n, &call, work, list);
                    let due = match &answer {
                        Ok(Got::Pairs(total, pairs)) => Ok(Got::Pairs(*total, pairs[..list.min(*total)].to_vec())),
                        _ => expected(n, &call),
                    };
                    match cause {
                        Some(number) => assert!(got == Err(number), "n = {n}, {work} words, {list} for {call:?}: {got:?}"),
                        None => assert!(got == due, "n = {n}, {list} for {call:?}: {got:?}"),
                    }
                }
            }
        }
    });
}

#[test]
fn order_of_refusals() {
    on_small_stack("order of refusals", || {
        let mut random = draws(6);
        // of the causes 1, 2, 11, 12 and 13 any may be there at once
        for causes in 0..16 {
            let there = |k: u32| causes >> k & 1 == 1;
            for n in [1, 3, 64, 200, 1024] {
                let lent_n = if there(0) { [0, 1025, 2048, usize::MAX][random.below(4)] } else { n };
                let a = Set::of(n, |x, y| x == 0 || y == 0);
                let mut bad = a.tree();
                bad.push(0);
                let s = if there(1) { bad.clone() } else { a.tree() };
                let pairs = if there(1) { vec![0, (n * 1024) as u32 + 1023] } else { a.list() };
                let mut asked = vec![(2, Call::Make(pairs)), (11, Call::List(s.clone()))];
                asked.extend(ONES.map(|op| (11, Call::One(op, s.clone()))));
                for op in TWOS {
                    asked.push((11, Call::Two(op, s.clone(), a.tree())));
                    asked.push((11, Call::Two(op, a.tree(), s.clone())));
                    asked.push((11, Call::Two(op, s.clone(), s.clone())));
                }
                let work = 32 * unit(n) - usize::from(there(2));
                for (lent, call) in asked {
                    // an empty answer fits every list, and pairs need not fit
                    let fits = matches!(call, Call::Two(Two::Difference, ..) | Call::List(_));
                    let first = [1, lent, 12, 13].into_iter().zip(0..).find(|&(number, k)| there(k) && !(number == 13 && fits));
                    let list = if there(3) { 0 } else { enough(n, &call) };
                    let got = run(lent_n, &call, work, list);
                    match first {
                        Some((number, _)) => assert!(got == Err(number), "n = {lent_n}, {causes:04b}, {call:?}: {got:?}"),
                        None => assert!(got.is_ok(), "n = {lent_n}, {call:?}: {got:?}"),
                    }
                }
            }
        }
    });
}

#[test]
fn inner_operations_without_room() {
    on_small_stack("inner operations without room", || {
        let inners = [
            Inner::Union,
            Inner::Intersection,
            Inner::Difference,
            Inner::Product { sense: 1, other: 0 },
            Inner::Transpose,
            Inner::Closure,
            Inner::Identity,
        ];
        let two = |op: Inner| !matches!(op, Inner::Transpose | Inner::Closure | Inner::Identity);
        for n in SIZES {
            let d = unit(n);
            for op in inners {
                for (n, words, la, lb) in [
                    (n, 2 * d - 1, 0, 0),
                    (n, 0, 0, 0),
                    (n, 2 * d, d + 1, 0),
                    (n, 2 * d, 0, d + 1),
                    (n, 2 * d, usize::MAX, usize::MAX),
                    (1025, 2 * d, 0, 0),
                    (usize::MAX, 2 * d, 0, 0),
                ] {
                    if lb > 0 && la == 0 && !two(op) {
                        continue;
                    }
                    case();
                    let mut work = Lent::new(words, MARK);
                    assert_eq!(engine::inner(op, work.get(), n, la, lb), 0);
                    assert!(work.written(0).is_some());
                }
            }
            for (n, words) in [(n, 2 * d - 1), (1025, 2 * d)] {
                case();
                let mut work = Lent::new(words, MARK);
                assert_eq!(engine::letter(work.get(), n, &[0]), 0);
                assert!(work.written(0).is_some());
            }
        }
    });
}
