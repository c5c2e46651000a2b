//! The first chain: a breadth-first search over records and positions of the Glushkov automaton.

use crate::expression::Expression::{self, *};
use crate::register::Register;
use crate::rows::ones;

/// The start's bit; the letters of an expression have bits 0 to 62, in order of their reading.
const START: usize = 63;

struct Automaton {
    /// The positions that may come after each.
    follow: [u64; 64],
    /// The positions that a step enters, by label × 2 + sense.
    enters: [u64; 52],
    /// The positions at which a word may end, the start among them if the empty word is one.
    last: u64,
    letters: usize,
}

/// The positions that begin and end the words of a part, and whether the empty word is one of them.
struct Ends {
    first: u64,
    last: u64,
    empty: bool,
}

impl Automaton {
    fn of(expression: &Expression) -> Automaton {
        let mut automaton = Automaton { follow: [0; 64], enters: [0; 52], last: 0, letters: 0 };
        let whole = automaton.part(expression, false);
        automaton.follow[START] = whole.first;
        automaton.last = whole.last | u64::from(whole.empty) << START;
        automaton
    }

    /// Adds the positions of a part, inverted or not.
    fn part(&mut self, expression: &Expression, inverted: bool) -> Ends {
        match expression {
            Letter(label) => {
                let position = 1 << self.letters;
                self.letters += 1;
                self.enters[*label as usize * 2 + usize::from(inverted)] |= position;
                Ends { first: position, last: position, empty: false }
            }
            NoneOf(members) => {
                let position = 1 << self.letters;
                self.letters += 1;
                for letter in members.others() {
                    self.enters[letter as usize ^ usize::from(inverted)] |= position;
                }
                Ends { first: position, last: position, empty: false }
            }
            Inverse(inner) => self.part(inner, !inverted),
            Alternative(left, right) => {
                let (left, right) = (self.part(left, inverted), self.part(right, inverted));
                Ends { first: left.first | right.first, last: left.last | right.last, empty: left.empty || right.empty }
            }
            Sequence(left, right) => {
                let (left, right) = (self.part(left, inverted), self.part(right, inverted));
                let (left, right) = if inverted { (right, left) } else { (left, right) };
                self.join(left.last, right.first);
                Ends {
                    first: left.first | if left.empty { right.first } else { 0 },
                    last: right.last | if right.empty { left.last } else { 0 },
                    empty: left.empty && right.empty,
                }
            }
            Plus(inner) => {
                let ends = self.part(inner, inverted);
                self.join(ends.last, ends.first);
                ends
            }
            Star(inner) => {
                let ends = self.part(inner, inverted);
                self.join(ends.last, ends.first);
                Ends { empty: true, ..ends }
            }
            Optional(inner) => Ends { empty: true, ..self.part(inner, inverted) },
        }
    }

    fn join(&mut self, last: u64, first: u64) {
        for position in ones(last) {
            self.follow[position] |= first;
        }
    }

    fn after(&self, positions: u64) -> u64 {
        ones(positions).fold(0, |after, position| after | self.follow[position])
    }
}

/// A chain under search: its last step, the node of the steps before it, and the positions that it is the first to bring to its record.
struct Node {
    before: usize,
    step: u32,
    positions: u64,
}

/// The step words of the first chain, if there is one.
///
/// Nodes come in the order of their chains, shorter first and then by step words, since each is extended by ascending step words. A
/// position that an earlier chain brought to the same record is dropped: whatever ends the later chain ends the earlier one too.
pub fn first(register: &Register, from: u32, to: u32, expression: &Expression) -> Option<Vec<u32>> {
    let automaton = Automaton::of(expression);
    let ends = |record: u32, positions: u64| record == to && positions & automaton.last != 0;
    if ends(from, 1 << START) {
        return Some(Vec::new());
    }
    let mut seen = vec![0u64; register.n()];
    let mut nodes = vec![Node { before: 0, step: from, positions: 1 << START }];
    let mut at = 0;
    while at < nodes.len() {
        let after = automaton.after(nodes[at].positions);
        for &step in register.steps((nodes[at].step & 1023) as usize) {
            let reached = step & 1023;
            let positions = after & automaton.enters[(step >> 10) as usize] & !seen[reached as usize];
            if positions != 0 {
                seen[reached as usize] |= positions;
                nodes.push(Node { before: at, step, positions });
                if ends(reached, positions) {
                    return Some(steps_to_last(&nodes));
                }
            }
        }
        at += 1;
    }
    None
}

/// The records, ascending, that a chain leads to from one; of an inverted expression those from which one leads to it.
pub fn ends(register: &Register, from: u32, expression: &Expression) -> Vec<u32> {
    let automaton = Automaton::of(expression);
    let mut seen = vec![0u64; register.n()];
    seen[from as usize] = 1 << START;
    let mut ahead = vec![(from, 1u64 << START)];
    while let Some((record, positions)) = ahead.pop() {
        let after = automaton.after(positions);
        for &step in register.steps(record as usize) {
            let reached = step & 1023;
            let positions = after & automaton.enters[(step >> 10) as usize] & !seen[reached as usize];
            if positions != 0 {
                seen[reached as usize] |= positions;
                ahead.push((reached, positions));
            }
        }
    }
    (0..register.n() as u32).filter(|&record| seen[record as usize] & automaton.last != 0).collect()
}

fn steps_to_last(nodes: &[Node]) -> Vec<u32> {
    let mut steps = Vec::new();
    let mut at = nodes.len() - 1;
    while at != 0 {
        steps.push(nodes[at].step);
        at = nodes[at].before;
    }
    steps.reverse();
    steps
}
