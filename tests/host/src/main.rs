//! `differences [long | heap | quick | few]`: the engine's exported calls against the oracle, and over damaged words. Every
//! slice that is lent ends right before a page that may not be touched; with `heap`, which is for valgrind, each is a block
//! of the heap, and there are few cases; with `quick` there are a tenth as many, with `few` a sixtieth. Every case is made
//! from its seed: those of seeds from 0 on are the same in every run, and if SEED is in the environment there are a tenth as
//! many from it on. Fails if there is a difference. All calls are made on a stack of 1 MB. With VERBOSE in the environment
//! each case is named before it is run.

mod damage;
mod engine;
mod generations;
mod history;
mod lent;
mod pages;
mod offsets;
mod run;
mod support;
mod trees;

use run::{Run, Size};
use std::process::ExitCode;
use std::time::Instant;

type Kind = (&'static str, fn(&mut Run, u64, Size), Size, [u64; 3]);

/// Each kind of case with its size, and how many there are: in the short run, in the long one, on the heap.
const KINDS: &[Kind] = &[
    ("history of few records", history::history, Size(1, 64), [200, 1000, 3]),
    ("history of some records", history::history, Size(65, 256), [80, 500, 0]),
    ("history of many records", history::history, Size(257, 1024), [40, 300, 0]),
    ("full register", history::full, Size(16, 1024), [6, 40, 0]),
    ("ring", history::ring, Size(1, 64), [20, 200, 1]),
    ("long ring", history::ring, Size(1000, 1024), [2, 12, 0]),
    ("trees of few records", trees::trees, Size(1, 64), [300, 3000, 3]),
    ("trees of some records", trees::trees, Size(65, 256), [60, 400, 0]),
    ("trees of many records", trees::trees, Size(257, 1024), [16, 100, 0]),
    ("pages of few records", pages::printed, Size(1, 64), [150, 1500, 3]),
    ("pages of many records", pages::printed, Size(65, 1024), [12, 100, 0]),
    ("every place of some pages", pages::every_place, Size(1, 1024), [12, 24, 0]),
    ("a million pairs printed", pages::million, Size(1024, 1024), [1, 1, 0]),
    ("damaged words, few records", damage::damaged, Size(1, 64), [400, 5000, 20]),
    ("damaged words, many records", damage::damaged, Size(65, 1024), [100, 1500, 1]),
    ("previews of few records", history::previews::previews, Size(1, 64), [100, 1000, 2]),
    ("previews of many records", history::previews::previews, Size(65, 1024), [12, 120, 0]),
    ("lists of edits, few records", history::drafts::drafts, Size(1, 64), [150, 1500, 2]),
    ("lists of edits, many records", history::drafts::drafts, Size(65, 1024), [20, 200, 0]),
    ("two people, few records", history::two_people::two_people, Size(1, 64), [40, 400, 1]),
    ("two people, many records", history::two_people::two_people, Size(65, 1024), [6, 60, 0]),
    ("two people, almost full", history::two_people::almost_full, Size(16, 256), [6, 60, 0]),
    ("closings up, few records", history::closing::closings, Size(1, 64), [100, 1000, 3]),
    ("closings up, many records", history::closing::closings, Size(65, 1024), [20, 200, 0]),
    ("generations of few records", generations::generations, Size(1, 64), [200, 2000, 3]),
    ("generations of many records", generations::generations, Size(65, 1024), [40, 300, 1]),
    ("generations of damaged words", generations::damaged, Size(1, 1024), [60, 600, 3]),
    ("sole support, few records", support::support, Size(1, 24), [1000, 6000, 3]),
    ("sole support, some records", support::support, Size(25, 256), [60, 500, 0]),
    ("sole support, many records", support::support, Size(900, 1024), [30, 150, 0]),
    ("offsets of few records", offsets::offsets, Size(1, 12), [20_000, 200_000, 20]),
    ("offsets of some records", offsets::offsets, Size(13, 256), [300, 3000, 0]),
    ("offsets of many records", offsets::offsets, Size(1000, 1024), [12, 100, 0]),
];

/// What a call may take of the stack, and this program beside it.
const STACK: usize = 1024 * 1024;

fn main() -> ExitCode {
    let run = std::thread::Builder::new().stack_size(STACK).spawn(run_all).expect("a thread");
    run.join().unwrap_or(ExitCode::FAILURE)
}

fn run_all() -> ExitCode {
    let arguments: Vec<String> = std::env::args().skip(1).collect();
    let (name, place) = match arguments.iter().map(String::as_str).collect::<Vec<_>>()[..] {
        [] => ("short", 0),
        ["long"] => ("long", 1),
        ["heap"] => ("heap", 2),
        ["quick"] => ("quick", 0),
        ["few"] => ("few", 0),
        _ => {
            eprintln!("usage: differences [long | heap | quick | few]");
            return ExitCode::from(2);
        }
    };
    let verbose = std::env::var_os("VERBOSE").is_some();
    let drawn: Option<u64> = std::env::var("SEED").ok().map(|seed| seed.parse().expect("SEED is a number"));
    let mut run = Run::new(name == "heap");
    let mut cases = 0;
    trees::sizes(&mut run);
    for &(kind, case, size, counts) in KINDS {
        let start = Instant::now();
        let count = match name {
            "quick" => counts[place].div_ceil(10),
            "few" => counts[place].div_ceil(60),
            _ => counts[place],
        };
        let new = drawn.map_or(0..0, |seed| seed..seed.saturating_add(count.div_ceil(10)));
        let made = count + new.end - new.start;
        for seed in (0..count).chain(new) {
            run.case = format!("{kind}, seed {seed}");
            if verbose {
                eprintln!("{}", run.case);
            }
            case(&mut run, seed, size);
            run.same("what every call keeps to", &(), &());
        }
        cases += made;
        if made > 0 {
            println!(
                "{kind} (n {} to {}): {} cases, {:.1} s",
                size.0,
                size.1,
                made,
                start.elapsed().as_secs_f64()
            );
        }
    }
    let counts = &run.counts;
    println!(
        "{cases} cases: {} edits, {} registers read, {} pair questions, {} by rows, {} chain questions, {} for ends, {} for starts, {} tree calls, \
         {} pages printed or read, {} damaged registers, {} generations, {} of sole support ({} records fall), {} offsets; \
         {} calls, {} differences",
        counts.edits,
        counts.contents,
        counts.pairs,
        counts.rows,
        counts.chains,
        counts.ends,
        counts.starts,
        counts.trees,
        counts.pages,
        counts.damaged,
        counts.generations,
        counts.supports,
        counts.fallen,
        counts.offsets,
        run.engine.calls,
        run.differences
    );
    if run.differences == 0 {
        ExitCode::SUCCESS
    } else {
        ExitCode::FAILURE
    }
}
