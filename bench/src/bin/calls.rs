//! `calls FILE..`: what other calls take beside the question by rows, in one run: the preview, the page and sole support of some expressions, single edits, and
//! a list of edits. Microseconds; edits in nanoseconds a call. Each is timed in batches, the least of 15 batches. Fails if a call is refused that is not to be.

use bench::clock::now;
use bench::sheet::Sheet;
use dating::calls::{self, STATE_WORDS};
use dating::rows_work;
use std::path::Path;
use std::process::ExitCode;

const EXPRESSIONS: [&str; 5] = ["a", "^a", "a/b", "(a|b)+", "a/b/c"];
const BATCHES: usize = 15;
/// What a refusal is told as, and its number.
const REFUSAL: u64 = 1 << 33;
/// The kind of an add, and the units of its word: kind, from, label, to.
const ADD: u64 = 2;

/// The microseconds of one call, the least of some batches of about a millisecond each.
fn least(mut call: impl FnMut()) -> f64 {
    call();
    let begun = now();
    call();
    let once = (now() - begun).as_secs_f64().max(1e-8);
    let count = ((1e-3 / once) as usize).clamp(1, 5000);
    (0..BATCHES)
        .map(|_| {
            let begun = now();
            (0..count).for_each(|_| call());
            (now() - begun).as_secs_f64() / count as f64 * 1e6
        })
        .fold(f64::INFINITY, f64::min)
}

fn main() -> ExitCode {
    for file in std::env::args().skip(1) {
        let sheet = match Sheet::read(Path::new(&file)) {
            Ok(sheet) => sheet,
            Err(message) => {
                eprintln!("{message}");
                return ExitCode::FAILURE;
            }
        };
        if let Err(message) = asked(&sheet).and_then(|()| edited(&sheet)) {
            eprintln!("{}: {message}", sheet.name);
            return ExitCode::FAILURE;
        }
    }
    ExitCode::SUCCESS
}

fn words_of(sheet: &Sheet) -> Vec<u32> {
    let mut words = vec![0; STATE_WORDS];
    assert_eq!(calls::fresh(sheet.n as u16, &mut words), 0);
    for link in &sheet.links {
        assert_eq!(calls::add(&mut words, link.from as u16, link.label as u8, link.to as u16), 0);
    }
    words
}

fn accepted(what: &str, told: u64) -> Result<u64, String> {
    if told < REFUSAL {
        Ok(told)
    } else {
        Err(format!("{what} is refused with {}", told - REFUSAL))
    }
}

fn asked(sheet: &Sheet) -> Result<(), String> {
    let words = words_of(sheet);
    let n = sheet.n as u16;
    // a link that is there is taken out, one that is not is put in
    let taken = sheet.links[sheet.links.len() / 2];
    let touching = |x: u32| sheet.links.iter().filter(|link| link.from == x || link.to == x).count();
    let core = (0..sheet.n).max_by_key(|&x| touching(x)).unwrap_or(0);
    let anchors: Vec<u16> = (0..n).filter(|&x| u32::from(x) != core).take(16).collect();
    // enough for either engine, and for sole support
    let mut work = vec![0; rows_work(n).max(32 * 21846) * 2];
    let mut list = vec![0; 1 << 20];
    println!("{}: {} links, {} at the core", sheet.name, sheet.links.len(), touching(core));
    println!("| Expression | Pairs | By rows | Preview | Ratio | Page | Ratio | ns a pair | Sole support | Ratio |");
    println!("|---|---|---|---|---|---|---|---|---|---|");
    for expression in EXPRESSIONS {
        let text = expression.as_bytes();
        let pairs = accepted("pairs_by_rows", calls::pairs_by_rows(&words, text, &mut work, &mut list))?;
        let mut page = vec![0; dating::page_bytes(pairs as usize)];
        let (kind, from, label, to) = (3, taken.from as u16, taken.label as u8, taken.to as u16);
        accepted("preview", calls::preview(&words, kind, from, label, to, text, &mut work, &mut list))?;
        accepted("pages", calls::pages(&words, text, &mut work, &mut page))?;
        accepted("sole_support", calls::sole_support(&words, core as u16, text, &anchors, &mut work, &mut list))?;
        let rows = least(|| _ = calls::pairs_by_rows(&words, text, &mut work, &mut list));
        let preview = least(|| _ = calls::preview(&words, kind, from, label, to, text, &mut work, &mut list));
        let printed = least(|| _ = calls::pages(&words, text, &mut work, &mut page));
        let sole = least(|| _ = calls::sole_support(&words, core as u16, text, &anchors, &mut work, &mut list));
        let each = (printed - rows).max(0.0) * 1e3 / (pairs.max(1)) as f64;
        println!(
            "| `{expression}` | {pairs} | {rows:.2} | {preview:.2} | {:.2} | {printed:.2} | {:.2} | {each:.0} | {sole:.2} | {:.2} |",
            preview / rows,
            printed / rows,
            sole / rows
        );
    }
    Ok(())
}

fn edited(sheet: &Sheet) -> Result<(), String> {
    let mut words = words_of(sheet);
    let link = sheet.links[sheet.links.len() / 2];
    let (from, label, to) = (link.from as u16, link.label as u8, link.to as u16);
    let free = (0..sheet.n).find(|&x| !sheet.links.iter().any(|link| link.from == x || link.to == x));
    let both = |first: f64| first / 2.0 * 1e3;
    println!("| Edit | ns a call |");
    println!("|---|---|");
    let time = least(|| {
        calls::lock(&mut words, from);
        calls::unlock(&mut words, from);
    });
    println!("| lock, unlock | {:.0} |", both(time));
    if let Some(record) = free {
        let time = least(|| {
            calls::withdraw(&mut words, record as u16);
            calls::reinstate(&mut words, record as u16);
        });
        println!("| withdraw, reinstate | {:.0} |", both(time));
    }
    let time = least(|| {
        calls::remove(&mut words, from, label, to);
        calls::add(&mut words, from, label, to);
    });
    println!("| remove, add | {:.0} |", both(time));
    let time = least(|| {
        calls::remove(&mut words, from, label, to);
        calls::undo(&mut words);
    });
    println!("| remove, undo | {:.0} |", both(time));
    let time = least(|| {
        calls::add(&mut words, from, label, to);
    });
    println!("| add, refused | {:.0} |", time * 1e3);
    let list: Vec<u64> = sheet.links.iter().map(|l| (((ADD << 16 | l.from as u64) << 8 | l.label as u64) << 16) | l.to as u64).collect();
    let mut fresh = vec![0; STATE_WORDS];
    calls::fresh(sheet.n as u16, &mut fresh);
    let mut made = fresh.clone();
    if calls::apply_all(&mut made, &list) != list.len() as u64 || made[4..] != words_of(sheet)[4..] {
        return Err("the list is not made".into());
    }
    let time = least(|| {
        made.copy_from_slice(&fresh);
        calls::apply_all(&mut made, &list);
    });
    println!("| a list of {}, each | {:.0} |", list.len(), time * 1e3 / list.len() as f64);
    Ok(())
}
