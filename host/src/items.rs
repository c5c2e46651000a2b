//! What answers consist of: pairs, steps, links and records, read from the words that the engine wrote.

use std::borrow::Cow;
use std::fmt::{self, Display, Formatter};

/// A link between two records.
///
/// ```
/// assert_eq!(dating::Link { from: 4, letter: 'o', to: 3 }.to_string(), "4 o 3");
/// ```
#[derive(Clone, Copy, Debug, PartialEq, Eq, PartialOrd, Ord, Hash)]
pub struct Link {
    pub from: u16,
    /// From a to z.
    pub letter: char,
    pub to: u16,
}

/// A step of a chain: a link crossed forward or against its sense.
#[derive(Clone, Copy, Debug, PartialEq, Eq, Hash)]
pub struct Step {
    /// From a to z.
    pub letter: char,
    pub forward: bool,
    /// The record that the step leads to.
    pub reached: u16,
}

impl Display for Link {
    fn fmt(&self, f: &mut Formatter) -> fmt::Result {
        write!(f, "{} {} {}", self.from, self.letter, self.to)
    }
}

impl Display for Step {
    fn fmt(&self, f: &mut Formatter) -> fmt::Result {
        write!(f, "{} {} {}", self.letter, if self.forward { '+' } else { '-' }, self.reached)
    }
}

fn record(word: u32) -> u16 {
    (word % 1024) as u16
}

fn letter(label: u32) -> char {
    char::from(b'a' + (label % 26) as u8)
}

fn pair(word: u32) -> (u16, u16) {
    (record(word / 1024), record(word))
}

fn step(word: u32) -> Step {
    let spelt = word / 1024;
    Step { letter: letter(spelt / 2), forward: spelt.is_multiple_of(2), reached: record(word) }
}

fn link(word: u32) -> Link {
    Link { from: record(word / 1024), letter: letter(word / 1024 / 1024), to: record(word) }
}

/// An iterator over the words of an answer, which are its own or stand in a lent list.
macro_rules! items {
    ($(#[$about:meta])* $name:ident, $item:ty, $of:ident) => {
        $(#[$about])*
        #[must_use]
        #[derive(Clone, Debug)]
        pub struct $name<'a> {
            words: Cow<'a, [u32]>,
            next: usize,
            total: usize,
        }

        impl<'a> $name<'a> {
            /// Those that a list has of so many in all: the whole list if they are more.
            pub(crate) fn new(list: &'a [u32], total: usize) -> $name<'a> {
                $name { words: Cow::Borrowed(&list[..total.min(list.len())]), next: 0, total }
            }

            /// The same with words of its own.
            pub(crate) fn own(self) -> $name<'static> {
                $name { words: Cow::Owned(self.words.into_owned()), next: self.next, total: self.total }
            }

            /// How many there are in all, written or not.
            ///
            /// ```
            /// # let mut register = dating::Register::fresh(3)?;
            /// register.add(0, 'a', 1)?;
            /// register.add(0, 'a', 2)?;
            /// let (mut work, mut list) = (vec![0; dating::rows_work(3)], [0; 1]);
            /// let pairs = register.pairs_in("a", &mut work, &mut list)?;
            /// assert_eq!((pairs.total(), pairs.len()), (2, 1));
            /// # Ok::<(), dating::Refusal>(())
            /// ```
            #[must_use]
            pub fn total(&self) -> usize {
                self.total
            }

            /// The words of those that are still to come, as the engine wrote them.
            ///
            /// ```
            /// # let mut register = dating::Register::fresh(3)?;
            /// register.add(1, 'a', 2)?;
            /// assert_eq!(register.pairs("a")?.words(), [1024 + 2]);
            /// # Ok::<(), dating::Refusal>(())
            /// ```
            #[must_use]
            pub fn words(&self) -> &[u32] {
                &self.words[self.next..]
            }
        }

        impl Iterator for $name<'_> {
            type Item = $item;

            fn next(&mut self) -> Option<$item> {
                let &word = self.words.get(self.next)?;
                self.next += 1;
                Some($of(word))
            }

            fn size_hint(&self) -> (usize, Option<usize>) {
                (self.words().len(), Some(self.words().len()))
            }
        }

        impl ExactSizeIterator for $name<'_> {}
    };
}

items! {
    /// The pairs that a question or a tree gives, from and to, ascending, each once; of a list that is too short for all, the smallest. As text, those that
    /// are still to come:
    ///
    /// ```
    /// # let mut register = dating::Register::fresh(3)?;
    /// register.add(0, 'a', 1)?;
    /// register.add(1, 'a', 2)?;
    /// assert_eq!(register.pairs("a+")?.to_string(), "0 1, 0 2, 1 2");
    /// # Ok::<(), dating::Refusal>(())
    /// ```
    Pairs, (u16, u16), pair
}

items! {
    /// The steps of a chain, in their order. As text, those that are still to come:
    ///
    /// ```
    /// # let mut register = dating::Register::fresh(3)?;
    /// register.add(0, 'a', 1)?;
    /// register.add(2, 'b', 1)?;
    /// assert_eq!(register.chain(0, 2, "a/^b")?.expect("a chain").to_string(), "a + 1, b - 2");
    /// # Ok::<(), dating::Refusal>(())
    /// ```
    Steps, Step, step
}

items! {
    /// The links of a register, ascending by letter, then from, then to.
    Links, Link, link
}

items! {
    /// Records, ascending, each once.
    Records, u16, record
}

/// Parts with commas between.
fn listed(parts: impl Iterator<Item = impl Display>, f: &mut Formatter) -> fmt::Result {
    for (place, part) in parts.enumerate() {
        write!(f, "{}{part}", if place == 0 { "" } else { ", " })?;
    }
    Ok(())
}

impl Display for Pairs<'_> {
    fn fmt(&self, f: &mut Formatter) -> fmt::Result {
        listed(self.words().iter().map(|&word| pair(word)).map(|(from, to)| format!("{from} {to}")), f)
    }
}

impl Display for Steps<'_> {
    fn fmt(&self, f: &mut Formatter) -> fmt::Result {
        listed(self.words().iter().map(|&word| step(word)), f)
    }
}

#[cfg(test)]
mod tests {
    use super::*;

    #[test]
    fn words_are_read_as_the_scope_writes_them() {
        assert_eq!(Pairs::new(&[3 * 1024 + 1023], 1).collect::<Vec<_>>(), [(3, 1023)]);
        let steps: Vec<_> = Steps::new(&[1, (25 * 2 + 1) * 1024 + 7], 2).map(|step| step.to_string()).collect();
        assert_eq!(steps, ["a + 1", "z - 7"]);
        assert_eq!(Links::new(&[(2 * 1024 + 5) * 1024 + 6], 1).next(), Some(Link { from: 5, letter: 'c', to: 6 }));
        assert_eq!(Links::new(&[1, 2, 3], 3).len(), 3);
    }

    #[test]
    fn no_word_past_those_written_is_read() {
        let total_and_words =
            |list: &[u32], total| (Pairs::new(list, total).total(), Pairs::new(list, total).own().words().to_vec());
        assert_eq!(total_and_words(&[4, 5, 6], 2), (2, vec![4, 5]));
        assert_eq!(total_and_words(&[4, 5, 6], 7), (7, vec![4, 5, 6]));
        assert_eq!(total_and_words(&[], 7), (7, vec![]));
    }

    #[test]
    fn what_is_taken_is_no_longer_told() {
        let mut pairs = Pairs::new(&[1, 2, 3], 3);
        assert_eq!(pairs.next(), Some((0, 1)));
        assert_eq!((pairs.words(), pairs.len(), pairs.total(), pairs.to_string()), (&[2, 3][..], 2, 3, "0 2, 0 3".to_string()));
    }
}
