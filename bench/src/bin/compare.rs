//! `compare FILE..`: a table for each sheet, with differences from the answers stored beside it.
//! `compare --check FILE..`: each question once, differences only.
//! `compare --growth`: made-up sheets and rings with n from 64 to 1,024.
//! Each fails if there is a difference.

use bench::answer::once;
use bench::comparison::{compare, Growth};
use bench::memory::Counting;
use bench::sheet::{Answers, Sheet};
use bench::{made, system::PEERS};
use std::path::Path;
use std::process::ExitCode;

#[global_allocator]
static COUNTING: Counting = Counting;

fn main() -> ExitCode {
    let arguments: Vec<String> = std::env::args().skip(1).collect();
    let arguments: Vec<&str> = arguments.iter().map(String::as_str).collect();
    let outcome = match &arguments[..] {
        ["--growth"] => growth(),
        ["--check", files @ ..] if !files.is_empty() => check(files),
        files if !files.is_empty() && !files[0].starts_with('-') => tables(files),
        _ => Err("usage: compare FILE.. | compare --check FILE.. | compare --growth".into()),
    };
    match outcome {
        Ok(0) => ExitCode::SUCCESS,
        Ok(differences) => {
            eprintln!("{differences} differences");
            ExitCode::FAILURE
        }
        Err(message) => {
            eprintln!("{message}");
            ExitCode::FAILURE
        }
    }
}

fn names() -> String {
    let names: Vec<_> = PEERS.iter().map(|peer| peer.name).collect();
    names.join(", ")
}

/// Each of these gives the number of differences.
fn tables(files: &[&str]) -> Result<usize, String> {
    println!("systems: {}", names());
    let mut differences = 0;
    for file in files.iter().map(Path::new) {
        let (sheet, answers) = (Sheet::read(file)?, Answers::read(file)?);
        let result = compare(PEERS, &sheet, Some(&answers), once())?;
        println!("{result}");
        differences += result.differences.len();
    }
    Ok(differences)
}

fn check(files: &[&str]) -> Result<usize, String> {
    let mut differences = 0;
    for file in files.iter().map(Path::new) {
        let (sheet, answers) = (Sheet::read(file)?, Answers::read(file)?);
        let found = compare(PEERS, &sheet, Some(&answers), true)?.differences;
        found.iter().for_each(|difference| println!("{difference}"));
        println!("{}: {} answers by {}, {} differences", sheet.name, sheet.questions.len(), names(), found.len());
        differences += found.len();
    }
    Ok(differences)
}

fn growth() -> Result<usize, String> {
    let mut differences = 0;
    for make in [made::sheet, made::ring] {
        let sheets = [64, 128, 256, 512, 1024].map(make);
        let growth = sheets.iter().map(|sheet| compare(PEERS, sheet, None, once())).collect::<Result<_, _>>().map(Growth)?;
        println!("{growth}");
        differences += growth.0.iter().map(|comparison| comparison.differences.len()).sum::<usize>();
    }
    Ok(differences)
}
