//! Every call has an example in its documentation, which is a test: a public function one of its own, a call of `calls` a place in the examples
//! at the head of that module. And the header names every number of a refusal.

use std::fs;
use std::path::{Path, PathBuf};

fn text(path: &str) -> String {
    let path = Path::new(env!("CARGO_MANIFEST_DIR")).join(path);
    fs::read_to_string(&path).unwrap_or_else(|error| panic!("{}: {error}", path.display()))
}

/// The files of the crate.
fn sources() -> Vec<PathBuf> {
    let folder = Path::new(env!("CARGO_MANIFEST_DIR")).join("src");
    let files = fs::read_dir(&folder).unwrap_or_else(|error| panic!("{}: {error}", folder.display()));
    let files: Vec<PathBuf> = files.map(|file| file.expect("a file").path()).collect();
    files.into_iter().filter(|path| path.extension().is_some_and(|of| of == "rs")).collect()
}

/// The name of each public function, with whether the comment above it has an example.
fn functions(source: &str) -> Vec<(String, bool)> {
    let (mut found, mut example) = (Vec::new(), false);
    for line in source.lines().map(str::trim) {
        if let Some(rest) = line.strip_prefix("pub fn ") {
            found.push((rest.split(['(', '<']).next().unwrap_or_default().to_string(), example));
        }
        example = (example && line.starts_with(['/', '#'])) || line.starts_with("/// ```");
    }
    found
}

#[test]
fn every_function_has_an_example() {
    let mut seen = 0;
    for path in sources().iter().filter(|path| !path.ends_with("calls.rs")) {
        for (name, example) in functions(&fs::read_to_string(path).expect("a source")) {
            assert!(example, "{}: {name} has no example", path.display());
            seen += 1;
        }
    }
    assert!(seen > 40, "{seen} functions");
}

#[test]
fn every_call_is_in_an_example() {
    let source = text("src/calls.rs");
    let head: String = source.lines().take_while(|line| line.starts_with("//!")).collect();
    let calls = functions(&source);
    assert!(calls.len() > 30, "{} calls", calls.len());
    for (name, _) in calls {
        assert!(head.contains(&format!("{name}(")), "{name} is in no example of calls");
    }
}

#[test]
fn a_missing_example_is_seen() {
    let found =
        functions("/// One.\n///\n/// ```\n/// one();\n/// ```\n#[inline]\npub fn one() {}\n\n/// Two.\npub fn two<'a>() {}\n");
    assert_eq!(found, [("one".to_string(), true), ("two".to_string(), false)]);
}

/// Where the second column of the header's table begins.
const SECOND: usize = 56;

#[test]
fn the_header_names_every_refusal() {
    let header = text("dating.h");
    let (table, _) = header.split_once("host/declarations").expect("the table's end");
    let columns: Vec<&str> = table.lines().flat_map(|line| <[&str; 2]>::from(line.split_at(line.len().min(SECOND)))).collect();
    let numbers = |half: &str| half.trim_start_matches(" *").trim().split("  ").next().and_then(|word| word.parse::<u32>().ok());
    let mut found: Vec<u32> = columns.into_iter().filter_map(numbers).collect();
    found.sort_unstable();
    let causes: Vec<u32> = (1..100).filter(|&number| dating::Refusal::of(number).is_some()).collect();
    assert_eq!(found, causes);
}

#[test]
fn the_header_has_the_words_of_every_refusal() {
    let header = text("dating.h");
    let (_, table) = header.split_once("meanings[] = {").expect("the words");
    let (table, _) = table.split_once("};").expect("their end");
    let words: Vec<&str> = table.lines().filter_map(|line| line.trim().strip_prefix('"')?.strip_suffix("\",")).collect();
    let causes = (1..100).map_while(dating::Refusal::of).map(|cause| cause.meaning().replace('−', "-"));
    assert_eq!(words, std::iter::once("done".to_string()).chain(causes).collect::<Vec<_>>());
}
