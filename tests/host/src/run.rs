//! A run: what was compared and what differed.

use crate::engine::Engine;
use oracle::random::Random;
use std::fmt::Debug;

#[derive(Default)]
pub struct Counts {
    pub edits: usize,
    pub contents: usize,
    pub pairs: usize,
    pub rows: usize,
    pub chains: usize,
    pub ends: usize,
    pub starts: usize,
    pub trees: usize,
    pub pages: usize,
    pub damaged: usize,
    pub generations: usize,
    pub supports: usize,
    /// The records that fell in all accepted questions of sole support.
    pub fallen: usize,
    pub offsets: usize,
}

/// From how many records to how many.
#[derive(Clone, Copy)]
pub struct Size(pub u32, pub u32);

impl Size {
    /// Every third time next to a power of two.
    pub fn records(self, random: &mut Random) -> u32 {
        let n = random.between(self.0 as usize, self.1 as usize) as u32;
        if random.chance(33) {
            let power = 1 << random.below(11);
            return random.pick(&[power - 1, power, power + 1]).clamp(self.0, self.1);
        }
        n
    }
}

pub struct Run {
    pub engine: Engine,
    pub counts: Counts,
    pub differences: usize,
    /// What is being done, for the message of a difference.
    pub case: String,
}

impl Run {
    pub fn new(heap: bool) -> Run {
        Run { engine: Engine::new(heap), counts: Counts::default(), differences: 0, case: String::new() }
    }

    pub fn same<T: PartialEq + Debug>(&mut self, what: &str, answer: &T, expected: &T) {
        self.same_of(|| what.into(), answer, expected);
    }

    /// Counts a difference between the engine's answer and the expected one, or what the call did not keep to.
    pub fn same_of<T: PartialEq + Debug>(&mut self, what: impl Fn() -> String, answer: &T, expected: &T) {
        let shown = |value: &T| {
            let text = format!("{value:?}");
            if text.len() > 200 {
                format!("{}.. ({} bytes)", text.chars().take(200).collect::<String>(), text.len())
            } else {
                text
            }
        };
        let faults = std::mem::take(&mut self.engine.faults);
        if answer != expected {
            self.difference(&format!("{}: {} where {} is expected", what(), shown(answer), shown(expected)));
        }
        for fault in faults {
            self.difference(&format!("{}: the engine {fault}", what()));
        }
    }

    fn difference(&mut self, what: &str) {
        self.differences += 1;
        if self.differences <= 20 {
            println!("{}: {what}", self.case);
        }
    }
}
