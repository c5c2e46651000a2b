//! The first chain between two records: shortest first, then the smaller step word at the first difference.
//!
//! The words of an expression are followed by what is left of them after each letter (Antimirov's partial derivatives):
//! a *rest* is a list of parts still to be spelt, one after another. A place is a record and a rest. The search goes
//! forward from the start, a step at a time, to all places not reached in fewer steps, and keeps for each the smallest
//! chain that reaches it in that many steps. A shortest chain passes no place later than it can be reached, so none is
//! missed; and of two chains of one length to a place, the smaller stays the smaller whatever follows.

use crate::book::{Sheet, LABELS};
use crate::expression::{Expression, Letter};
use std::collections::{BTreeMap, BTreeSet};

#[derive(Clone, Copy, Debug, PartialEq, Eq)]
pub struct Step {
    pub letter: Letter,
    pub reached: u32,
}

impl Step {
    /// (label × 2 + sense) × 1,024 + record reached.
    pub fn word(self) -> u32 {
        (self.letter.label * 2 + u32::from(self.letter.against)) * 1024 + self.reached
    }

    pub fn of_word(word: u32) -> Step {
        let spelt = word / 1024;
        Step { letter: Letter { label: spelt / 2, against: spelt % 2 == 1 }, reached: word % 1024 }
    }
}

/// All steps over the present links: for a record and a letter the records reached.
pub struct Steps(BTreeMap<(u32, Letter), Vec<u32>>);

impl Steps {
    pub fn of(sheet: &Sheet) -> Steps {
        let mut steps: BTreeMap<(u32, Letter), Vec<u32>> = BTreeMap::new();
        for link in &sheet.links {
            let letter = |against| Letter { label: link.label, against };
            steps.entry((link.from, letter(false))).or_default().push(link.to);
            steps.entry((link.to, letter(true))).or_default().push(link.from);
        }
        Steps(steps)
    }

    pub fn reached(&self, from: u32, letter: Letter) -> &[u32] {
        self.0.get(&(from, letter)).map_or(&[], Vec::as_slice)
    }
}

/// The step words of the first chain from `x` to `y` that spells a word of the expression, if there is any chain; there is
/// none from or to a withdrawn record (S4.9).
pub fn first(n: u32, sheet: &Sheet, expression: &Expression, x: u32, y: u32) -> Option<Vec<u32>> {
    assert!(x < n && y < n);
    if sheet.withdrawn.contains(&x) || sheet.withdrawn.contains(&y) {
        return None;
    }
    let steps = Steps::of(sheet);
    let words = Words::of(expression);
    let ends = |&(record, rest): &Place| record == y && words.may_end[rest];

    // For each place reached, the place before it and the step between; the start has none.
    let mut before: BTreeMap<Place, Option<(Place, u32)>> = BTreeMap::from([((x, 0), None)]);
    // The places first reached in as many steps as were made, each with the rank of its smallest chain among all of
    // them: equal for equal chains, lower for the smaller.
    let mut level: Vec<(Place, usize)> = vec![((x, 0), 0)];
    while !level.is_empty() {
        let arrived = level.iter().filter(|(place, _)| ends(place)).min_by_key(|&&(_, rank)| rank);
        if let Some(&(place, _)) = arrived {
            return Some(walked(&before, place));
        }
        // The smallest way to each new place: the rank of the chain so far, then the step word.
        let mut ways: BTreeMap<Place, ((usize, u32), Place)> = BTreeMap::new();
        for &(place, rank) in &level {
            let (record, rest) = place;
            for &(letter, left) in &words.after[rest] {
                for &reached in steps.reached(record, letter) {
                    let next = (reached, left);
                    if before.contains_key(&next) {
                        continue;
                    }
                    let way = ((rank, Step { letter, reached }.word()), place);
                    let smallest = ways.entry(next).or_insert(way);
                    *smallest = way.min(*smallest);
                }
            }
        }
        let chains: BTreeSet<(usize, u32)> = ways.values().map(|&(chain, _)| chain).collect();
        let ranks: BTreeMap<(usize, u32), usize> = chains.into_iter().zip(0..).collect();
        level = ways.iter().map(|(&place, (chain, _))| (place, ranks[chain])).collect();
        before.extend(ways.into_iter().map(|(place, ((_, word), from))| (place, Some((from, word)))));
    }
    None
}

/// A record, and the number of the rest that is still to be spelt from there.
type Place = (u32, usize);

/// The step words on the way to a place.
fn walked(before: &BTreeMap<Place, Option<(Place, u32)>>, place: Place) -> Vec<u32> {
    let mut words = Vec::new();
    let mut place = place;
    while let Some((earlier, word)) = before[&place] {
        words.push(word);
        place = earlier;
    }
    words.reverse();
    words
}

/// A part of an expression without inverses of anything but letters; parts within it by their place in a list.
enum Part {
    /// one letter, any of these
    Letter(Vec<Letter>),
    Alternative(usize, usize),
    Sequence(usize, usize),
    /// zero or more
    Star(usize),
    /// one or more: once, then the star
    Plus {
        once: usize,
        star: usize,
    },
    Optional(usize),
}

/// Parts still to be spelt, the next one last.
type Rest = Vec<usize>;

/// The words of an expression as rests, numbered; rest 0 is the whole expression.
struct Words {
    /// For each rest, each letter that a word of it may begin with, and what is then left.
    after: Vec<BTreeSet<(Letter, usize)>>,
    /// For each rest, whether it has the empty word.
    may_end: Vec<bool>,
}

impl Words {
    fn of(expression: &Expression) -> Words {
        let mut parts = Parts(Vec::new());
        let whole = parts.put(expression, false);
        let mut rests: Vec<Rest> = vec![vec![whole]];
        let mut numbers: BTreeMap<Rest, usize> = BTreeMap::from([(vec![whole], 0)]);
        let mut words = Words { after: Vec::new(), may_end: Vec::new() };
        while words.after.len() < rests.len() {
            let rest = rests[words.after.len()].clone();
            let mut after = BTreeSet::new();
            for (letter, left) in parts.after_rest(&rest) {
                let number = *numbers.entry(left.clone()).or_insert_with(|| {
                    rests.push(left);
                    rests.len() - 1
                });
                after.insert((letter, number));
            }
            words.after.push(after);
            words.may_end.push(rest.iter().all(|&part| parts.has_empty(part)));
        }
        words
    }
}

struct Parts(Vec<Part>);

impl Parts {
    fn push(&mut self, part: Part) -> usize {
        self.0.push(part);
        self.0.len() - 1
    }

    /// Puts in an expression, or its inverse: each word read backwards, with plain and inverted exchanged.
    fn put(&mut self, expression: &Expression, inverse: bool) -> usize {
        let part = match expression {
            Expression::Letter(label) => {
                assert!(*label < LABELS);
                Part::Letter(vec![Letter { label: *label, against: inverse }])
            }
            Expression::NoneOf(members) => {
                // A sense that no member has is not crossed; in one that a member has, every label but the members'.
                let mut letters = Vec::new();
                for against in [false, true] {
                    if members.iter().any(|member| member.against == against) {
                        let any = (0..LABELS).map(|label| Letter { label, against });
                        letters.extend(any.filter(|letter| !members.contains(letter)));
                    }
                }
                let exchanged = |letter: Letter| Letter { against: letter.against != inverse, ..letter };
                Part::Letter(letters.into_iter().map(exchanged).collect())
            }
            Expression::Inverse(part) => return self.put(part, !inverse),
            Expression::Alternative(left, right) => {
                Part::Alternative(self.put(left, inverse), self.put(right, inverse))
            }
            Expression::Sequence(left, right) => {
                let (first, second) = if inverse { (right, left) } else { (left, right) };
                Part::Sequence(self.put(first, inverse), self.put(second, inverse))
            }
            Expression::Star(part) => Part::Star(self.put(part, inverse)),
            Expression::Plus(part) => {
                let once = self.put(part, inverse);
                Part::Plus { once, star: self.push(Part::Star(once)) }
            }
            Expression::Optional(part) => Part::Optional(self.put(part, inverse)),
        };
        self.push(part)
    }

    fn has_empty(&self, part: usize) -> bool {
        match &self.0[part] {
            Part::Letter(_) => false,
            Part::Alternative(left, right) => self.has_empty(*left) || self.has_empty(*right),
            Part::Sequence(left, right) => self.has_empty(*left) && self.has_empty(*right),
            Part::Star(_) | Part::Optional(_) => true,
            Part::Plus { once, .. } => self.has_empty(*once),
        }
    }

    /// Each letter that a word of the rest may begin with, and what is then left.
    fn after_rest(&self, rest: &[usize]) -> BTreeSet<(Letter, Rest)> {
        let mut found = BTreeSet::new();
        let mut rest = rest;
        while let Some((&next, later)) = rest.split_last() {
            self.after_part(next, later, &mut found);
            if !self.has_empty(next) {
                break;
            }
            rest = later;
        }
        found
    }

    /// The same of the words that begin with a letter of this part, where `later` follows the part.
    fn after_part(&self, part: usize, later: &[usize], found: &mut BTreeSet<(Letter, Rest)>) {
        let before_later = |next: usize| [later, &[next]].concat();
        match &self.0[part] {
            Part::Letter(letters) => found.extend(letters.iter().map(|&letter| (letter, later.to_vec()))),
            Part::Alternative(left, right) => {
                self.after_part(*left, later, found);
                self.after_part(*right, later, found);
            }
            Part::Sequence(left, right) => {
                self.after_part(*left, &before_later(*right), found);
                if self.has_empty(*left) {
                    self.after_part(*right, later, found);
                }
            }
            Part::Star(once) => self.after_part(*once, &before_later(part), found),
            Part::Plus { once, star } => self.after_part(*once, &before_later(*star), found),
            Part::Optional(once) => self.after_part(*once, later, found),
        }
    }
}
