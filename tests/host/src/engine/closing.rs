//! Closing up over lent space.

use super::Engine;
use dating::calls;
use std::mem::replace;

use crate::lent::Lender;

/// What stands past the new numbers, and in the whole list of a refused call.
const FILLING: u16 = 0x5aa5;

impl Engine {
    /// The whole list of so many words after the call, or the number of the refusal.
    pub fn close_up(&mut self, words: &mut [u32], length: usize) -> Result<Vec<u16>, u32> {
        let n = words.first().map_or(0, |&n| n as usize);
        // The list is taken out for the call, so that the state can be lent beside it.
        let mut lender = replace(&mut self.numbers, Lender::heap());
        let list = lender.lend(length);
        list.fill(FILLING);
        let answer = self.changed(words, |state| calls::close_up(state, list));
        let told = list.to_vec();
        self.numbers = lender;
        let before = if answer == 0 { n } else { 0 };
        self.fault(matches!(answer, 0 | 13 | 16 | 21), &format!("answers a closing up with {answer}"));
        self.fault(told.iter().skip(before).all(|&word| word == FILLING), "touches words past the new numbers");
        match answer {
            0 => Ok(told),
            number => Err(number),
        }
    }

    /// What the list of an accepted closing up holds past the new numbers.
    pub fn past(numbers: usize, length: usize) -> Vec<u16> {
        vec![FILLING; length - numbers]
    }
}
