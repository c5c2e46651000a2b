//! The stack that each tree call needs for n = 1,024: the smallest thread, to 4 KB, on which it returns. Each trial is a process of its own.

use std::process::Command;
use std::thread::Builder;
use tree::engine::{self, Inner, One, Two, PRODUCT};
use tree::plain::{unit, Set};

const N: usize = 1024;
const PAGE: usize = 4096;
const MOST: usize = 512 * 1024;

const CALLS: [&str; 16] = [
    "make",
    "list",
    "union",
    "intersection",
    "difference",
    "product",
    "transpose",
    "closure",
    "inner union",
    "inner intersection",
    "inner difference",
    "inner product",
    "inner transpose",
    "inner closure",
    "inner identity",
    "nothing",
];

/// A call, as a thread of its own makes it. What it needs hangs on n alone: the descent is as deep for any pair.
fn call(name: &str) -> usize {
    let set = Set::of(N, |x, y| x == y);
    let (tree, pairs) = (set.tree(), set.list());
    let (mut out, mut list, mut work) = (vec![0; unit(N)], vec![0; N * N], vec![0; 32 * unit(N)]);
    work[..tree.len()].copy_from_slice(&tree);
    work[tree.len()..2 * tree.len()].copy_from_slice(&tree);
    let inner = |op, work: &mut [u64]| engine::inner(op, work, N, tree.len(), tree.len());
    match name {
        "make" => engine::make(N, &pairs, &mut out, &mut work).unwrap(),
        "list" => engine::list(N, &tree, &mut list, &mut work).unwrap(),
        "union" => engine::two(Two::Union, N, &tree, &tree, &mut out, &mut work).unwrap(),
        "intersection" => engine::two(Two::Intersection, N, &tree, &tree, &mut out, &mut work).unwrap(),
        "difference" => engine::two(Two::Difference, N, &tree, &tree, &mut out, &mut work).unwrap(),
        "product" => engine::two(PRODUCT, N, &tree, &tree, &mut out, &mut work).unwrap(),
        "transpose" => engine::one(One::Transpose, N, &tree, &mut out, &mut work).unwrap(),
        "closure" => engine::one(One::Closure, N, &tree, &mut out, &mut work).unwrap(),
        "inner union" => inner(Inner::Union, &mut work),
        "inner intersection" => inner(Inner::Intersection, &mut work),
        "inner difference" => inner(Inner::Difference, &mut work),
        "inner product" => inner(Inner::Product { sense: 1, other: 1 }, &mut work),
        "inner transpose" => inner(Inner::Transpose, &mut work),
        "inner closure" => inner(Inner::Closure, &mut work),
        "inner identity" => inner(Inner::Identity, &mut work),
        "nothing" => 0,
        other => panic!("no call {other}"),
    }
}

fn returns(name: &str, stack: usize) -> bool {
    let program = std::env::current_exe().expect("this program has a name");
    let trial = Command::new(program).args([name, &stack.to_string()]).output().expect("it can be run");
    trial.status.success()
}

/// The smallest stack on which a call returns.
fn least(name: &'static str) -> usize {
    let (mut short, mut enough) = (PAGE, MOST);
    assert!(returns(name, enough), "{name} needs more than 512 KB");
    while enough - short > PAGE {
        let middle = (short + enough) / 2 / PAGE * PAGE;
        if returns(name, middle) {
            enough = middle;
        } else {
            short = middle;
        }
    }
    enough
}

fn main() {
    let words: Vec<String> = std::env::args().collect();
    if let [_, name, stack] = &words[..] {
        let (name, stack) = (name.clone(), stack.parse().unwrap());
        let thread = Builder::new().stack_size(stack).spawn(move || call(&name)).unwrap();
        thread.join().unwrap();
        return;
    }
    println!("smallest stack on which a call returns, n = 1,024, KB");
    for name in CALLS {
        println!("{name:<20} {:>4}", least(name) / 1024);
    }
}
