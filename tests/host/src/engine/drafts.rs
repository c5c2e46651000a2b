//! A list of edits made all or none, over lent space.

use super::Engine;
use dating::calls;

impl Engine {
    /// How many calls were made, or the place of the first that is refused and its number.
    pub fn apply_all(&mut self, words: &mut [u32], draft: &[u64]) -> Result<usize, (usize, u32)> {
        let state = self.state.lend_words(words);
        let lent = self.first.lend_words(draft);
        let answer = calls::apply_all(state, lent);
        let (kept, as_lent) = (state == words, lent == draft);
        let past = state.get(calls::STATE_WORDS..) == words.get(calls::STATE_WORDS..);
        words.copy_from_slice(state);
        self.intact();
        self.fault(past, "changes a state past the register's words");
        self.fault(as_lent, "changes the calls of a list");
        let Some(told) = answer.checked_sub(calls::REFUSED) else {
            self.fault(answer == draft.len() as u64, &format!("makes {answer} of {} calls", draft.len()));
            return Ok(answer as usize);
        };
        let (place, number) = ((told / 32) as usize, (told % 32) as u32);
        self.fault(kept, &format!("changes the register and refuses the call at {place} with {number}"));
        self.fault(place <= draft.len() && (1..=18).contains(&number), &format!("refuses at {place} with {number}"));
        Err((place, number))
    }
}
