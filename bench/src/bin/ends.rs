//! `ends FILE..`: the ends of the first record of each chain question of a sheet, and the starts of its last, by its expression: the engine beside a plain
//! search, and beside all pairs by rows. Microseconds, in one run. `ends --growth`: of made-up sheets with n from 64 to 1,024. Fails if an answer differs.

use bench::answer::{microseconds, timed};
use bench::chains;
use bench::expression::{read, Expression};
use bench::made;
use bench::register::{Edit, Register as Plain};
use bench::sheet::{Question, Sheet};
use dating::{calls, rows_work, Register};
use std::path::Path;
use std::process::ExitCode;

/// Medians of one question.
struct Times {
    engine: f64,
    plain: f64,
    rows: f64,
}

fn main() -> ExitCode {
    let mut differences = 0;
    println!("| Sheet | Kind | Count | Engine, median | Total | Ratio | Plain, total | Pairs by rows, total |");
    println!("|---|---|---|---|---|---|---|---|");
    let files: Vec<String> = std::env::args().skip(1).collect();
    let sheets = match &files[..] {
        [only] if only == "--growth" => Ok([64, 128, 256, 512, 1024].map(made::sheet).to_vec()),
        files => files.iter().map(|file| Sheet::read(Path::new(file))).collect::<Result<Vec<_>, _>>(),
    };
    match sheets {
        Ok(sheets) => differences += sheets.iter().map(compare).sum::<usize>(),
        Err(message) => {
            eprintln!("{message}");
            return ExitCode::FAILURE;
        }
    }
    if differences == 0 {
        ExitCode::SUCCESS
    } else {
        eprintln!("{differences} differences");
        ExitCode::FAILURE
    }
}

fn compare(sheet: &Sheet) -> usize {
    let mut register = Register::fresh(sheet.n as u16).expect("n in range");
    let mut plain = Plain::fresh(sheet.n).expect("n in range");
    for &link in &sheet.links {
        register.add(link.from as u16, char::from(b'a' + link.label as u8), link.to as u16).expect("a link");
        plain.edit(Edit::Add(link)).expect("a link");
    }
    let words = register.words().to_vec();
    let (mut list, mut pairs, mut work) = (vec![0; 1024], vec![0; 1 << 20], vec![0; rows_work(sheet.n as u16)]);
    let mut differences = 0;
    for (kind, starts) in [("ends", false), ("starts", true)] {
        let mut times = Vec::new();
        for question in &sheet.questions {
            let Question::Chain { from, to, expression, .. } = question else { continue };
            let (record, text) = (if starts { *to } else { *from }, expression.as_bytes());
            let call = if starts { calls::starts } else { calls::ends };
            let (total, engine) = timed(false, || call(&words, record as u16, text, &mut list));
            let (expected, search) = timed(false, || {
                let expression = read(text).expect("an expression");
                chains::ends(&plain, record, &if starts { Expression::Inverse(Box::new(expression)) } else { expression })
            });
            let (_, rows) = timed(false, || calls::pairs_by_rows(&words, text, &mut work, &mut pairs));
            if list.get(..total as usize) != Some(&expected) {
                println!("{}: {kind} {record} {expression}: the answers differ", sheet.name);
                differences += 1;
            }
            times.push(Times { engine: microseconds(engine), plain: microseconds(search), rows: microseconds(rows) });
        }
        times.sort_by(|a, b| a.engine.total_cmp(&b.engine));
        let sum = |of: fn(&Times) -> f64| times.iter().map(of).sum::<f64>();
        let (engine, plain, rows) = (sum(|time| time.engine), sum(|time| time.plain), sum(|time| time.rows));
        let median = times.get(times.len() / 2).map_or(0.0, |time| time.engine);
        println!("| `{}` | {kind} | {} | {median:.2} | {engine:.0} | {:.2} | {plain:.0} | {rows:.0} |", sheet.name, times.len(), engine / plain);
    }
    differences
}
