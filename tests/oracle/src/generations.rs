//! Generations: the length of the longest run of links of some labels that ends at each record, or the first loop (S15).
//!
//! Whether a record can return to itself is seen by going on from it to every record that can be reached; numbers grow until no link asks for more; the
//! first loop is the smallest of the chains of the fewest steps, of which the smallest to each record is kept step by step.

use crate::book::{Book, LABELS};
use crate::{Refusal, Space};
use std::collections::{BTreeMap, BTreeSet};

#[derive(Clone, Debug, PartialEq, Eq)]
pub enum Generations {
    /// A number to a record in use, ascending by record.
    Numbers(Vec<u32>),
    /// The step words of the loop.
    Loop(Vec<u32>),
}

/// The answer, or the first cause against it: 3, 12, 13.
pub fn generations(book: &Book, labels: &[u8], space: Space) -> Result<Generations, Refusal> {
    if labels.iter().any(|&label| u32::from(label) >= LABELS) {
        return Err(Refusal::Label);
    }
    space.work_at_least(64 * book.n() as usize)?;
    match of(book, labels) {
        Generations::Numbers(numbers) => space.listed(numbers).map(Generations::Numbers),
        Generations::Loop(steps) => space.listed(steps).map(Generations::Loop),
    }
}

/// The steps from a record over these links, forward: the step word and the record reached.
type Steps = BTreeMap<u32, Vec<(u32, u32)>>;

fn of(book: &Book, labels: &[u8]) -> Generations {
    let labels: BTreeSet<u32> = labels.iter().copied().map(u32::from).collect();
    let mut steps = Steps::new();
    for link in book.sheet().links.iter().filter(|link| labels.contains(&link.label)) {
        steps.entry(link.from).or_default().push((link.label * 2 * 1024 + link.to, link.to));
    }
    match (0..book.n()).find(|&record| returns(&steps, record)) {
        Some(record) => Generations::Loop(first_loop(&steps, record)),
        None => {
            let numbers = numbers(&steps, book.n());
            let in_use = (0..book.n()).filter(|record| !book.sheet().withdrawn.contains(record));
            Generations::Numbers(in_use.map(|record| numbers[record as usize]).collect())
        }
    }
}

/// Whether one or more steps lead from a record back to it.
fn returns(steps: &Steps, record: u32) -> bool {
    let mut seen = BTreeSet::new();
    let mut ahead = vec![record];
    while let Some(at) = ahead.pop() {
        for &(_, reached) in steps.get(&at).into_iter().flatten() {
            if reached == record {
                return true;
            }
            if seen.insert(reached) {
                ahead.push(reached);
            }
        }
    }
    false
}

/// Where no record returns, numbers stop growing.
fn numbers(steps: &Steps, n: u32) -> Vec<u32> {
    let mut numbers = vec![0; n as usize];
    loop {
        let before = numbers.clone();
        for (&from, steps) in steps {
            for &(_, to) in steps {
                numbers[to as usize] = numbers[to as usize].max(numbers[from as usize] + 1);
            }
        }
        if numbers == before {
            return numbers;
        }
    }
}

/// Of the shortest chains from a record that returns back to it, the one with the smaller word at the first difference.
fn first_loop(steps: &Steps, record: u32) -> Vec<u32> {
    let mut seen = BTreeSet::new();
    // The smallest chain to each record that is first reached in so many steps.
    let mut level = BTreeMap::from([(record, Vec::new())]);
    loop {
        let mut next: BTreeMap<u32, Vec<u32>> = BTreeMap::new();
        for (at, chain) in &level {
            for &(word, reached) in steps.get(at).into_iter().flatten() {
                let longer: Vec<u32> = chain.iter().copied().chain([word]).collect();
                let smallest = next.entry(reached).or_insert_with(|| longer.clone());
                if longer < *smallest {
                    *smallest = longer;
                }
            }
        }
        if let Some(chain) = next.remove(&record) {
            return chain;
        }
        next.retain(|&reached, _| seen.insert(reached));
        level = next;
    }
}

#[cfg(test)]
mod tests {
    use super::*;
    use crate::book::{Call, Link};

    fn book(n: u32, links: &[(u32, u32, u32)]) -> Book {
        let mut book = Book::fresh(n).expect("n in range");
        for &(from, label, to) in links {
            book.call(Call::Add(Link { from, label, to })).expect("a link");
        }
        book
    }

    #[test]
    fn the_longest_run_counts() {
        let book = book(5, &[(0, 0, 1), (1, 0, 2), (0, 1, 2), (4, 2, 0)]);
        assert_eq!(of(&book, &[0, 1]), Generations::Numbers(vec![0, 1, 2, 0, 0]));
        assert_eq!(of(&book, &[2, 1, 2]), Generations::Numbers(vec![1, 0, 2, 0, 0]));
        assert_eq!(of(&book, &[]), Generations::Numbers(vec![0; 5]));
    }

    #[test]
    fn the_smallest_record_that_returns_begins_the_loop() {
        // 0 comes after the loop of 1 and 2, and so is not left over; 3 leads into it.
        let loops = book(4, &[(1, 0, 2), (2, 0, 1), (1, 0, 0), (3, 0, 1), (2, 1, 1)]);
        assert_eq!(of(&loops, &[0]), Generations::Loop(vec![2, 1]));
        assert_eq!(of(&loops, &[1, 0]), Generations::Loop(vec![2, 1]));
        let itself = book(2, &[(1, 3, 1), (0, 0, 1), (1, 0, 0)]);
        assert_eq!(of(&itself, &[3]), Generations::Loop(vec![3 * 2048 + 1]));
        assert_eq!(of(&itself, &[3, 0]), Generations::Loop(vec![1, 0]));
    }

    #[test]
    fn causes_in_their_order() {
        let book = book(2, &[(0, 0, 1)]);
        let answer = |labels: &[u8], work, list| generations(&book, labels, Space { work, list });
        assert_eq!(answer(&[0, 26], 0, 0), Err(Refusal::Label));
        assert_eq!(answer(&[0], 127, 0), Err(Refusal::Work));
        assert_eq!(answer(&[0], 128, 1), Err(Refusal::List));
        assert_eq!(answer(&[0], 128, 2), Ok(Generations::Numbers(vec![0, 1])));
    }
}
