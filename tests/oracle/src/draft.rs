//! Lists of edits and undos made all or none (S22): each call on a copy of the book where those before it were made.

use crate::book::{Book, Call};
use crate::{preview, Refusal};

/// The call of a word: kind, from or the record, label and to, of 24, 16, 8 and 16 bits. Any other kind than an edit's or undo's is refused with 15.
pub fn call(word: u64) -> Result<Call, Refusal> {
    let bits = |from: u32, count: u32| (word >> from & ((1 << count) - 1)) as u32;
    let kind = u16::try_from(bits(40, 24)).map_err(|_| Refusal::Kind)?;
    preview::call(kind, bits(24, 16), bits(16, 8), bits(0, 16))
}

/// How many calls were made; or the place of the first that is refused, from 0, and the book as it was.
pub fn apply_all(book: &mut Book, words: &[u64]) -> Result<usize, (usize, Refusal)> {
    let mut copy = book.clone();
    for (place, &word) in words.iter().enumerate() {
        call(word).and_then(|call| copy.call(call)).map_err(|refusal| (place, refusal))?;
    }
    *book = copy;
    Ok(words.len())
}

#[cfg(test)]
mod tests {
    use super::*;

    #[test]
    fn all_are_made_or_none() {
        let mut book = Book::fresh(4).expect("n is in range");
        let (lock, unlock, add) = (4 << 40 | 2 << 24, 5 << 40 | 2 << 24, 2 << 40 | 1 << 24 | 2);
        assert_eq!(apply_all(&mut book, &[]), Ok(0));
        assert_eq!(apply_all(&mut book, &[lock]), Ok(1));
        assert_eq!(apply_all(&mut book, &[unlock, add, add, lock]), Err((2, Refusal::Already)));
        assert_eq!((book.sheet().links.len(), book.sheet().locked.len(), book.held()), (0, 1, 1));
        assert_eq!(apply_all(&mut book, &[unlock, 12 << 40, add]), Err((1, Refusal::Kind)));
        assert_eq!(apply_all(&mut book, &[unlock, add, lock]), Ok(3));
        assert_eq!((book.sheet().links.len(), book.sheet().locked.len(), book.held()), (1, 1, 4));
        assert_eq!(call(1 << 56 | 2 << 40), Err(Refusal::Kind));
    }
}
