//! `generations FILE..`: generations of each sheet over all labels, the engine beside a plain program, as it is and with every link turned to lead from the
//! larger record to the smaller, so that there is no loop. Median microseconds of one answer, in one run. Fails if an answer differs.

use bench::clock::now;
use bench::sheet::{Link, Sheet};
use dating::{chain_work, Generations, Register};
use std::collections::{BTreeSet, VecDeque};
use std::path::Path;
use std::process::ExitCode;

const LETTERS: &str = "abcdefghijklmnopqrstuvwxyz";
const RUNS: usize = 401;

/// Whether it is a loop, and the words.
type Answer = (bool, Vec<u32>);

fn main() -> ExitCode {
    let mut differences = 0;
    for file in std::env::args().skip(1) {
        let sheet = match Sheet::load(Path::new(&file)) {
            Ok(sheet) => sheet,
            Err(message) => {
                eprintln!("{message}");
                return ExitCode::FAILURE;
            }
        };
        let turned: BTreeSet<(u32, u32, u32)> =
            sheet.links.iter().filter(|link| link.from != link.to).map(|link| (link.from.max(link.to), link.label, link.from.min(link.to))).collect();
        let turned: Vec<Link> = turned.into_iter().map(|(from, label, to)| Link { from, label, to }).collect();
        for (name, links) in [("turned", &turned), ("as it is", &sheet.links)] {
            differences += compare(&format!("{}, {name}", sheet.name), sheet.n, links);
        }
    }
    if differences == 0 {
        ExitCode::SUCCESS
    } else {
        ExitCode::FAILURE
    }
}

fn compare(name: &str, n: u32, links: &[Link]) -> usize {
    let mut register = Register::fresh(n as u16).expect("n in range");
    for link in links {
        register.add(link.from as u16, char::from(b'a' + link.label as u8), link.to as u16).expect("a link");
    }
    let (mut work, mut list) = (vec![0; chain_work(n as u16)], vec![0; 65536]);
    let (engine, engine_time) = median(|| {
        match register.generations_in(LETTERS, &mut work, &mut list).expect("space") {
            Generations::Numbers(numbers) => (false, numbers.words().to_vec()),
            Generations::Loop(steps) => (true, steps.words().to_vec()),
        }
    });
    let (plain, plain_time) = median(|| plain(n as usize, links));
    let kind = if engine.0 { format!("a loop of {} steps", engine.1.len()) } else { format!("{} numbers", engine.1.len()) };
    println!("{name}: n {n}, {} links, {kind}: engine {engine_time:.1}, plain {plain_time:.1}, ratio {:.1}", links.len(), engine_time / plain_time);
    if engine != plain {
        println!("{name}: the answers differ");
        return 1;
    }
    0
}

fn median(mut answer: impl FnMut() -> Answer) -> (Answer, f64) {
    let given = answer();
    let mut times: Vec<f64> = (0..RUNS)
        .map(|_| {
            let start = now();
            std::hint::black_box(answer());
            (now() - start).as_secs_f64() * 1e6
        })
        .collect();
    times.sort_by(f64::total_cmp);
    (given, times[RUNS / 2])
}

/// Kahn's peeling; if records are left, the first of them by number that can be reached from itself, and its first loop by breadth-first search.
fn plain(n: usize, links: &[Link]) -> Answer {
    let mut after = vec![Vec::new(); n];
    let mut waiting = vec![0; n];
    for link in links {
        after[link.from as usize].push((link.label * 2048 + link.to, link.to as usize));
        waiting[link.to as usize] += 1;
    }
    let mut numbers = vec![0; n];
    let mut free: Vec<usize> = (0..n).filter(|&record| waiting[record] == 0).collect();
    let mut taken = 0;
    while let Some(record) = free.pop() {
        taken += 1;
        for &(_, to) in &after[record] {
            numbers[to] = numbers[to].max(numbers[record] + 1);
            waiting[to] -= 1;
            if waiting[to] == 0 {
                free.push(to);
            }
        }
    }
    if taken == n {
        return (false, numbers);
    }
    let mut before = vec![Vec::new(); n];
    for link in links {
        before[link.to as usize].push(link.from as usize);
    }
    let left = (0..n).filter(|&record| waiting[record] > 0);
    left.map(|record| (record, distances(&before, record)))
        .find_map(|(record, far)| first(&after, record, &far))
        .map_or((true, Vec::new()), |steps| (true, steps))
}

/// How many steps it is from each record to the end.
fn distances(before: &[Vec<usize>], end: usize) -> Vec<usize> {
    let mut far = vec![usize::MAX; before.len()];
    far[end] = 0;
    let mut ahead = VecDeque::from([end]);
    while let Some(record) = ahead.pop_front() {
        for &from in &before[record] {
            if far[from] == usize::MAX {
                far[from] = far[record] + 1;
                ahead.push_back(from);
            }
        }
    }
    far
}

/// The first loop of a record, if it has one.
fn first(after: &[Vec<(u32, usize)>], record: usize, far: &[usize]) -> Option<Vec<u32>> {
    let nearest = after[record].iter().map(|&(_, to)| far[to]).min().filter(|&far| far < usize::MAX)?;
    let mut steps = Vec::new();
    let (mut at, mut left) = (record, nearest + 1);
    while left > 0 {
        let &(word, to) = after[at].iter().filter(|&&(_, to)| far[to] == left - 1).min()?;
        steps.push(word);
        (at, left) = (to, left - 1);
    }
    Some(steps)
}
