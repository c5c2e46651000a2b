//! Previews (S12): what a pair question gives on a copy of the book where one edit or undo was made. The edit's refusals come first.

use crate::book::{Book, Call, Link};
use crate::{question, Refusal, Space};

/// The call of a frame's kind, with its arguments: of a record alone the first is the record. Kinds that neither edit nor undo are refused with 15.
pub fn call(kind: u16, from: u32, label: u32, to: u32) -> Result<Call, Refusal> {
    match kind {
        2 => Ok(Call::Add(Link { from, label, to })),
        3 => Ok(Call::Remove(Link { from, label, to })),
        4 => Ok(Call::Lock(from)),
        5 => Ok(Call::Unlock(from)),
        6 => Ok(Call::Undo),
        10 => Ok(Call::Withdraw(from)),
        11 => Ok(Call::Reinstate(from)),
        _ => Err(Refusal::Kind),
    }
}

/// All pair words, with space enough.
pub fn pairs(book: &Book, call: Call, text: &[u8]) -> Result<Vec<u32>, Refusal> {
    let mut copy = book.clone();
    copy.call(call)?;
    Ok(question::pairs(&copy, text, Space::AMPLE)?.words)
}

#[cfg(test)]
mod tests {
    use super::*;

    #[test]
    fn the_edit_is_looked_at_first_and_is_not_made() {
        let book = Book::fresh(3).expect("n is in range");
        let (add, remove) = (call(2, 0, 0, 1).unwrap(), call(3, 0, 0, 1).unwrap());
        assert_eq!(pairs(&book, add, b"a"), Ok(vec![1]));
        assert_eq!(pairs(&book, remove, b"a)"), Err(Refusal::Absent));
        assert_eq!(pairs(&book, add, b"a)"), Err(Refusal::Grammar));
        assert_eq!(pairs(&book, Call::Undo, &[b'a'; 257]), Err(Refusal::NoneHeld));
        assert_eq!((book.sheet().links.len(), book.held()), (0, 0));
        assert_eq!([1, 7, 8, 9, 12].map(|kind| call(kind, 0, 0, 1)), [Err(Refusal::Kind); 5]);
    }
}
