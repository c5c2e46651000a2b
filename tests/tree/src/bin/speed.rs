//! The time of the tree calls for n = 1,024, each beside the same algorithm in Rust in the same run. The results of both are compared.

use std::hint::black_box;
use std::time::Instant;
use tree::engine::{self, Inner, One, Two, PRODUCT};
use tree::plain::{unit, Set};
use tree::random::Random;
use tree::same;

const N: usize = 1024;

/// The least of some times, in microseconds.
fn least(rounds: usize, mut call: impl FnMut() -> usize) -> f64 {
    (0..rounds)
        .map(|_| {
            let began = Instant::now();
            black_box(call());
            began.elapsed().as_secs_f64() * 1e6
        })
        .fold(f64::MAX, f64::min)
}

struct Table {
    missed: usize,
}

impl Table {
    fn row(&mut self, what: &str, wanted: f64, ours: f64, plain: f64) {
        let verdict = if ours < wanted { "" } else { "  missed" };
        self.missed += usize::from(ours >= wanted);
        println!("{what:<44} {ours:>10.1} {plain:>10.1} {:>6.2} {wanted:>9.0}{verdict}", ours / plain);
    }
}

struct Space {
    work: Vec<u64>,
    out: Vec<u64>,
    list: Vec<u32>,
}

impl Space {
    fn new() -> Space {
        Space { work: vec![0; 32 * unit(N)], out: vec![0; unit(N)], list: vec![0; N * N] }
    }

    fn lay(&mut self, a: &[u64], b: &[u64]) {
        self.work[..a.len()].copy_from_slice(a);
        self.work[a.len()..a.len() + b.len()].copy_from_slice(b);
    }
}

fn inner(table: &mut Table, what: &str, wanted: f64, rounds: usize, op: Inner, a: &[u64], b: &[u64]) {
    let mut space = Space::new();
    let mut run = |call: fn(Inner, &mut [u64], usize, usize, usize) -> usize| {
        let mut words = Vec::new();
        let mut best = f64::MAX;
        for _ in 0..rounds {
            space.lay(a, b);
            let mut len = 0;
            best = best.min(least(1, || {
                len = call(op, &mut space.work, N, a.len(), b.len());
                len
            }));
            words = space.work[..len].to_vec();
        }
        (best, words)
    };
    let ours = run(engine::inner);
    let plain = run(same::inner);
    assert_eq!(ours.1, plain.1, "{what}");
    table.row(what, wanted, ours.0, plain.0);
}

fn two(table: &mut Table, what: &str, wanted: f64, rounds: usize, op: Two, a: &[u64], b: &[u64]) {
    let mut space = Space::new();
    let ours = least(rounds, || engine::two(op, N, a, b, &mut space.out, &mut space.work).unwrap());
    let made = space.out.clone();
    let plain = least(rounds, || same::two(op, N, a, b, &mut space.out, &mut space.work));
    assert_eq!(made, space.out, "{what}");
    table.row(what, wanted, ours, plain);
}

fn one(table: &mut Table, what: &str, wanted: f64, rounds: usize, op: One, a: &[u64]) {
    let mut space = Space::new();
    let ours = least(rounds, || engine::one(op, N, a, &mut space.out, &mut space.work).unwrap());
    let made = space.out.clone();
    let plain = least(rounds, || same::one(op, N, a, &mut space.out, &mut space.work));
    assert_eq!(made, space.out, "{what}");
    table.row(what, wanted, ours, plain);
}

fn list(table: &mut Table, what: &str, wanted: f64, rounds: usize, a: &[u64]) {
    let mut space = Space::new();
    let ours = least(rounds, || engine::list(N, a, &mut space.list, &mut space.work).unwrap());
    let made = space.list.clone();
    let plain = least(rounds, || same::list(N, a, &mut space.list));
    assert_eq!(made, space.list, "{what}");
    table.row(what, wanted, ours, plain);
}

fn make(table: &mut Table, what: &str, wanted: f64, rounds: usize, pairs: &[u32]) {
    let mut space = Space::new();
    let ours = least(rounds, || engine::make(N, pairs, &mut space.out, &mut space.work).unwrap());
    let made = space.out.clone();
    let plain = least(rounds, || same::make(N, pairs, &mut space.out, &mut space.work));
    assert_eq!(made, space.out, "{what}");
    table.row(what, wanted, ours, plain);
}

fn measure() -> usize {
    let mut random = Random(5);
    let mut table = Table { missed: 0 };
    println!("n = 1,024, microseconds        {:>24} {:>10} {:>6} {:>9}", "engine", "plain", "ratio", "wanted");
    let few = [random.pairs(N, 130), random.pairs(N, 130)];
    let (a, b) = (few[0].tree(), few[1].tree());
    const ANY: f64 = f64::INFINITY;
    let product = Inner::Product { sense: 0, other: 0 };
    inner(&mut table, "inner union, 130 pairs each", 60.0, 2000, Inner::Union, &a, &b);
    inner(&mut table, "inner product, 130 pairs each", 200.0, 2000, product, &a, &b);
    inner(&mut table, "inner closure, 130 pairs", ANY, 2000, Inner::Closure, &a, &[]);
    two(&mut table, "union, 130 pairs each", 200.0, 2000, Two::Union, &a, &b);
    two(&mut table, "product, 130 pairs each", 400.0, 2000, PRODUCT, &a, &b);
    two(&mut table, "product, both inverted, 130 pairs each", 400.0, 2000, Two::Product { sense: 1, other: 1 }, &a, &b);
    one(&mut table, "closure, 130 pairs", ANY, 2000, One::Closure, &a);
    make(&mut table, "make, 130 pairs", ANY, 2000, &few[0].list());
    list(&mut table, "list, 130 pairs", ANY, 2000, &a);

    let full = Set::of(N, |_, _| true);
    let shapes: Vec<(&str, Set)> = vec![
        ("full", full.clone()),
        ("half of all pairs", random.dense(N, 50)),
        ("1 in 10", random.dense(N, 10)),
        ("1 in 100", random.dense(N, 1)),
        ("one full row", Set::of(N, |x, _| x == 511)),
        ("one full column", Set::of(N, |_, y| y == 1023)),
        ("chessboard", Set::of(N, |x, y| (x + y) % 2 == 0)),
        ("last column of each square", Set::of(N, |_, y| y % 64 == 63)),
        ("even middle records", Set::of(N, |_, y| y % 2 == 0)),
        ("below the diagonal", Set::of(N, |x, y| x > y)),
        ("a ring", Set::of(N, |x, y| (x + 1) % N == y)),
    ];
    for (name, set) in &shapes {
        let t = set.tree();
        two(&mut table, &format!("product of itself, {name}"), 100e3, 3, PRODUCT, &t, &t);
    }
    // no middle record serves: the search goes to its end for every cell
    let evens = Set::of(N, |_, y| y % 2 == 0).tree();
    let odds = Set::of(N, |x, _| x % 2 == 1).tree();
    two(&mut table, "product, no middle record serves", 100e3, 3, PRODUCT, &evens, &odds);
    for (name, set) in &shapes {
        one(&mut table, &format!("closure, {name}"), 60e3, 3, One::Closure, &set.tree());
    }
    let t = full.tree();
    two(&mut table, "union, full", ANY, 3, Two::Union, &t, &t);
    one(&mut table, "transpose, full", ANY, 3, One::Transpose, &t);
    make(&mut table, "make, full", ANY, 3, &full.list());
    list(&mut table, "list, full", 20e3, 10, &t);
    table.missed
}

fn main() {
    let missed = std::thread::Builder::new().stack_size(4 << 20).spawn(measure).unwrap().join().unwrap();
    println!("{missed} missed");
}
