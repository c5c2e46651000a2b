//! Made-up sheets for n from 64 to 1,024: of one density, four links to a record, early letters the commoner; and rings.

use crate::sheet::{Link, Question, Sheet};

/// SplitMix64.
pub struct Random(pub u64);

impl Random {
    fn next(&mut self) -> u64 {
        self.0 = self.0.wrapping_add(0x9E37_79B9_7F4A_7C15);
        let z = (self.0 ^ (self.0 >> 30)).wrapping_mul(0xBF58_476D_1CE4_E5B9);
        let z = (z ^ (z >> 27)).wrapping_mul(0x94D0_49BB_1331_11EB);
        z ^ (z >> 31)
    }

    pub fn below(&mut self, bound: u32) -> u32 {
        (self.next() % u64::from(bound)) as u32
    }

    fn link(&mut self, n: u32) -> Link {
        let label = (0..3).map(|_| self.below(26)).min().unwrap_or(0);
        Link { from: self.below(n), label, to: self.below(n) }
    }
}

const PAIRS: [(&str, &str); 8] = [
    ("single", "a"),
    ("inverse", "^(a/b)"),
    ("sequence", "a/b/c"),
    ("optional", "a/b?/c?"),
    ("closure", "a+"),
    ("alt-closure", "(a|b|c)+"),
    ("nested", "(a/(k|^k)*/^a)+"),
    ("every", "(a|b|c|d|e|f|g|h|i|j|k|l|m|n|o|p|q|r|s|t|u|v|w|x|y|z)+"),
];

const CHAINS: [(&str, &str); 4] = [
    ("chain-sequence", "a/b/c"),
    ("chain-closure", "(a|b|c)+"),
    ("chain-nested", "((d/f)|(e/(g|h)+))*/^(r/(d|^d)?)"),
    ("chain-every", "(a|b|c|d|e|f|g|h|i|j|k|l|m|n|o|p|q|r|s|t|u|v|w|x|y|z)+"),
];

/// The sheet of size n, always the same: eight edits, a pair question of each class, eight chain questions of each.
pub fn sheet(n: u32) -> Sheet {
    let mut random = Random(u64::from(n));
    let mut sheet = Sheet { name: format!("made-{n}"), n, ..Sheet::default() };
    // One link fewer, so that an add has room at n = 1,024.
    while sheet.links.len() < 4 * n as usize - 1 {
        let link = random.link(n);
        if !sheet.links.contains(&link) {
            sheet.links.push(link);
        }
    }
    while sheet.questions.len() < 8 {
        let link = random.link(n);
        if !sheet.links.contains(&link) {
            sheet.questions.push(Question::Edit(link));
        }
    }
    for (class, expression) in PAIRS {
        sheet.questions.push(Question::Pairs { class: class.into(), expression: expression.into() });
    }
    for (class, expression) in CHAINS {
        for _ in 0..8 {
            let (from, to) = (random.below(n), random.below(n));
            sheet.questions.push(Question::Chain { class: class.into(), from, to, expression: expression.into() });
        }
    }
    sheet
}

/// The most letters that an expression may have.
const LETTERS: usize = 63;

/// A ring of n records, asked for the longest chain that a sheet of that size has: with n a power of 2, as in the growth table, it has 63 × n steps.
pub fn ring(n: u32) -> Sheet {
    let links = (0..n).map(|from| Link { from, label: 0, to: (from + 1) % n }).collect();
    let expression = format!("({})+", ["a"; LETTERS].join("/"));
    let longest = Question::Chain { class: "chain-longest".into(), from: 0, to: 0, expression };
    Sheet { name: format!("ring-{n}"), n, links, questions: vec![longest] }
}

#[cfg(test)]
mod tests {
    use super::*;
    use crate::system::{ask, LIST};
    use crate::{plain, runner};

    #[test]
    fn made_sheets_can_be_loaded_and_asked() {
        for n in [64, 1024] {
            let sheet = sheet(n);
            assert_eq!(sheet, super::sheet(n));
            runner::run(plain::PEER, &sheet, true, &mut Vec::new()).unwrap();
        }
    }

    #[test]
    fn the_longest_chain_of_a_ring_has_a_step_for_each_record_and_letter() {
        for n in [64, 1024] {
            let mut list = vec![0; LIST];
            let sheet = ring(n);
            let mut system = (plain::PEER.load)(n, &sheet.links).unwrap();
            assert_eq!(ask(&mut *system, &sheet.questions[0], &mut list), Ok(Some(LETTERS * n as usize)));
        }
    }
}
