//! The printed page.

use crate::calls::{self, counted};
use crate::space::{most_pairs, tree_work};
use crate::{Refusal, Register};

/// The bytes of a line with its line feed; the pairs of a line and of a page.
const LINE: usize = 73;
const LINE_PAIRS: usize = 6;
const PAGE_PAIRS: usize = 354;

/// The bytes of the pages of so many pairs.
///
/// ```
/// // an answer of no pairs is a head alone; six pairs are a line under it, and the seventh begins another
/// assert_eq!((dating::page_bytes(0), dating::page_bytes(6), dating::page_bytes(7)), (73, 2 * 73, 3 * 73));
/// ```
#[must_use]
pub fn page_bytes(pairs: usize) -> usize {
    LINE * (pairs.div_ceil(LINE_PAIRS) + pairs.div_ceil(PAGE_PAIRS).max(1))
}

impl Register {
    /// The pairs of records that the expression joins, as printed pages: lines of 72 bytes and a line feed, six pairs to a line, and a head with the first
    /// 60 bytes of the expression and the page's number before each 59 lines. [`read_pages`] gives the pairs back.
    ///
    /// ```
    /// # let mut register = dating::Register::fresh(3)?;
    /// register.add(0, 'a', 1)?;
    /// register.add(1, 'a', 2)?;
    /// let pages = register.pages("a+")?;
    /// assert_eq!(pages.len(), dating::page_bytes(3));
    /// assert!(pages[73..].starts_with(b"    0     1     0     2     1     2 "));
    /// assert_eq!(dating::read_pages("a+", &pages)?, [(0, 1), (0, 2), (1, 2)]);
    /// assert_eq!(dating::read_pages("a*", &pages), Err(dating::Refusal::Frame));
    /// # Ok::<(), dating::Refusal>(())
    /// ```
    pub fn pages(&self, expression: impl AsRef<[u8]>) -> Result<Vec<u8>, Refusal> {
        let n = self.size();
        let mut pages = vec![0; page_bytes(most_pairs(n))];
        let length = self.pages_in(expression, &mut vec![0; tree_work(n)], &mut pages)?;
        pages.truncate(length);
        pages.shrink_to_fit();
        Ok(pages)
    }

    /// The same in lent space: work of [`tree_work`] words, and a space, which is left as it was with a refusal. How many bytes the pages are is told.
    ///
    /// ```
    /// # let mut register = dating::Register::fresh(2)?;
    /// register.add(0, 'a', 1)?;
    /// let (mut work, mut pages) = (vec![0; dating::tree_work(2)], vec![0; dating::page_bytes(1)]);
    /// assert_eq!(register.pages_in("a", &mut work, &mut pages)?, pages.len());
    /// assert_eq!(register.pages_in("a", &mut work, &mut pages[1..]), Err(dating::Refusal::List));
    /// # Ok::<(), dating::Refusal>(())
    /// ```
    pub fn pages_in(&self, expression: impl AsRef<[u8]>, work: &mut [u64], pages: &mut [u8]) -> Result<usize, Refusal> {
        counted(calls::pages(self.words(), expression.as_ref(), work, pages))
    }
}

/// The pairs that the pages of an expression show. Bytes that are not the pages of that expression and some ascending list of different pairs of records
/// below 1,024 are refused with [`Refusal::Frame`].
///
/// ```
/// # let mut register = dating::Register::fresh(2)?;
/// register.add(0, 'a', 1)?;
/// let mut pages = register.pages("a")?;
/// assert_eq!(dating::read_pages("a", &pages)?, [(0, 1)]);
/// pages[73 + 4] = b'1'; // the first figure of the line under the head: the pair would be (1, 1)
/// assert_eq!(dating::read_pages("a", &pages)?, [(1, 1)]);
/// pages[73 + 5] = b'x';
/// assert_eq!(dating::read_pages("a", &pages), Err(dating::Refusal::Frame));
/// # Ok::<(), dating::Refusal>(())
/// ```
pub fn read_pages(expression: impl AsRef<[u8]>, pages: impl AsRef<[u8]>) -> Result<Vec<(u16, u16)>, Refusal> {
    let pages = pages.as_ref();
    let mut list = vec![0; pages.len() / LINE * LINE_PAIRS];
    let count = counted(calls::read_pages(expression.as_ref(), pages, &mut list))?;
    Ok(list[..count].iter().map(|word| ((word / 1024) as u16, (word % 1024) as u16)).collect())
}
