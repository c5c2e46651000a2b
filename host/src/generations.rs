//! Generations: how long the longest run of links to each record is, or the first loop.

use crate::calls;
use crate::register::label;
use crate::space::{chain_work, longest_chain};
use crate::{Mark, Refusal, Register, Steps};
use std::borrow::Cow;

/// The answer to [`Register::generations`].
#[must_use]
#[derive(Clone, Debug)]
pub enum Generations<'a> {
    /// No record can return to itself: the number of each record in use.
    Numbers(Numbers<'a>),
    /// The first of the shortest loops of the smallest record that can return to itself. It begins at that record, and its last step reaches it.
    Loop(Steps<'a>),
}

/// The records in use, ascending, each with its number: the length of the longest run of links that ends at it.
#[must_use]
#[derive(Clone, Debug)]
pub struct Numbers<'a> {
    records: std::vec::IntoIter<u16>,
    words: Cow<'a, [u32]>,
}

impl Numbers<'_> {
    /// The numbers of those that are still to come, as the engine wrote them.
    ///
    /// ```
    /// # let mut register = dating::Register::fresh(2)?;
    /// register.add(0, 'a', 1)?;
    /// let dating::Generations::Numbers(numbers) = register.generations("a")? else { panic!("a loop") };
    /// assert_eq!(numbers.words(), [0, 1]);
    /// # Ok::<(), dating::Refusal>(())
    /// ```
    #[must_use]
    pub fn words(&self) -> &[u32] {
        &self.words[self.words.len() - self.records.len()..]
    }
}

impl Iterator for Numbers<'_> {
    type Item = (u16, u32);

    fn next(&mut self) -> Option<(u16, u32)> {
        let &number = self.words().first()?;
        Some((self.records.next()?, number))
    }

    fn size_hint(&self) -> (usize, Option<usize>) {
        self.records.size_hint()
    }
}

impl ExactSizeIterator for Numbers<'_> {}

impl Register {
    /// Numbers every record in use by the longest run of links with these letters, crossed forward, that ends at it. If some record can return to itself
    /// over such links, the first loop of the smallest that can comes instead. Letters may stand in any order and repeat; with none of them every number
    /// is 0.
    ///
    /// ```
    /// use dating::Generations;
    ///
    /// let mut register = dating::Register::fresh(4)?;
    /// register.add(2, 'a', 0)?;
    /// register.add(0, 'b', 3)?;
    /// register.add(2, 'a', 3)?;
    /// register.withdraw(1)?;
    /// let Generations::Numbers(numbers) = register.generations("ab")? else { panic!("a loop") };
    /// assert_eq!(numbers.collect::<Vec<_>>(), [(0, 1), (2, 0), (3, 2)]);
    ///
    /// register.add(3, 'a', 0)?;
    /// let Generations::Loop(steps) = register.generations("ab")? else { panic!("numbers") };
    /// assert_eq!(steps.map(|step| step.to_string()).collect::<Vec<_>>(), ["b + 3", "a + 0"]);
    /// # Ok::<(), dating::Refusal>(())
    /// ```
    pub fn generations(&self, letters: &str) -> Result<Generations<'static>, Refusal> {
        let space = (chain_work(self.size()), longest_chain(self.size()));
        self.in_space(space.0, space.1, |_, work, list| {
            Ok(match self.generations_in(letters, work, list)? {
                Generations::Loop(steps) => Generations::Loop(steps.own()),
                Generations::Numbers(Numbers { records, words }) => {
                    Generations::Numbers(Numbers { records, words: Cow::Owned(words.into_owned()) })
                }
            })
        })
    }

    /// The same in lent space: work of [`chain_work`] words, and a list, which is left as it was with a refusal.
    ///
    /// ```
    /// # let mut register = dating::Register::fresh(2)?;
    /// register.add(1, 'a', 1)?;
    /// let (mut work, mut list) = (vec![0; dating::chain_work(2)], [0; 2]);
    /// let dating::Generations::Loop(steps) = register.generations_in("a", &mut work, &mut list)? else { panic!("numbers") };
    /// assert_eq!(steps.map(|step| step.to_string()).collect::<Vec<_>>(), ["a + 1"]);
    /// # Ok::<(), dating::Refusal>(())
    /// ```
    pub fn generations_in<'a>(&self, letters: &str, work: &mut [u64], list: &'a mut [u32]) -> Result<Generations<'a>, Refusal> {
        let labels: Vec<u8> = letters.chars().map(label).collect();
        let (looped, length) = calls::numbered(calls::generations(self.words(), &labels, work, list))?;
        if looped {
            return Ok(Generations::Loop(Steps::new(list, length)));
        }
        let in_use = self.marks()?.into_iter().zip(0..).filter(|&(mark, _)| mark != Mark::Withdrawn);
        let records: Vec<u16> = in_use.map(|(_, record)| record).take(length).collect();
        Ok(Generations::Numbers(Numbers { words: Cow::Borrowed(&list[..records.len()]), records: records.into_iter() }))
    }
}
