//! The register.

use crate::calls::{self, STATE_WORDS, WITHDRAWN, counted, done, told};
use crate::space::{chain_work, longest_chain};
use crate::{Link, Links, Pairs, Records, Refusal, Steps};
use std::fmt::{self, Debug, Formatter};
use std::sync::Mutex;

/// The most links that a register has.
const MAX_LINKS: usize = 4096;

/// The letters.
const LETTERS: usize = 26;

/// A register of n records, with its links, its locked and withdrawn records and the latest 256 edits.
///
/// Two registers are equal if they have the same records, links, locked and withdrawn records, and the same edits held for undo:
///
/// ```
/// # let mut register = dating::Register::fresh(3)?;
/// let before = register.clone();
/// register.lock(0)?;
/// assert_ne!(register, before);
/// register.undo()?;
/// assert_eq!(register, before);
/// # Ok::<(), dating::Refusal>(())
/// ```
///
/// A question takes `&self`, and its answer stands by itself, so that questions may be asked while an answer is read, and from several threads at once:
///
/// ```
/// # let mut register = dating::Register::fresh(3)?;
/// register.add(0, 'a', 1)?;
/// register.add(1, 'a', 2)?;
/// for (from, to) in register.pairs("a+")? {
///     assert!(register.chain(from, to, "a+")?.is_some());
/// }
/// # Ok::<(), dating::Refusal>(())
/// ```
///
/// It takes 21,624 bytes, and with the first question of each kind the space for it: for 1,024 records 4.2 MB and 4.2 MB (pairs; by trees
/// 5.6 MB and 4.2 MB), or 0.5 MB and 0.3 MB (chains), of which the system gives what is written to. A question that is asked while another is answered has
/// space of its own, so that none waits. [`pairs_in`](Register::pairs_in) and [`chain_in`](Register::chain_in) take the caller's space instead.
pub struct Register {
    pub(crate) words: Box<[u32]>,
    space: Mutex<Space>,
}

/// Space for questions.
#[derive(Default)]
struct Space {
    work: Vec<u64>,
    list: Vec<u32>,
}

impl Register {
    /// A register of n records, n from 1 to 1,024, with no links and no locks, and every record in use.
    ///
    /// ```
    /// let register = dating::Register::fresh(1024)?;
    /// assert_eq!(register.size(), 1024);
    /// assert_eq!(dating::Register::fresh(1025).err(), Some(dating::Refusal::Size));
    /// # Ok::<(), dating::Refusal>(())
    /// ```
    pub fn fresh(n: u16) -> Result<Register, Refusal> {
        let mut words = vec![0; STATE_WORDS].into_boxed_slice();
        done(calls::fresh(n, &mut words))?;
        Ok(Register { words, space: Mutex::default() })
    }

    /// A register from the words of one, at the front of a state. What is promised is promised of words that a register had; any others do no
    /// harm.
    ///
    /// ```
    /// let mut register = dating::Register::fresh(2)?;
    /// register.add(0, 'a', 1)?;
    /// let kept = dating::Register::of_words(register.words())?;
    /// assert_eq!(kept, register);
    /// assert_eq!(kept.pairs("a")?.collect::<Vec<_>>(), [(0, 1)]);
    /// assert_eq!(dating::Register::of_words(&[2, 1]).err(), Some(dating::Refusal::NotOpened));
    /// # Ok::<(), dating::Refusal>(())
    /// ```
    pub fn of_words(words: &[u32]) -> Result<Register, Refusal> {
        if calls::size(words) == 0 {
            return Err(Refusal::NotOpened);
        }
        Ok(Register { words: words.into(), space: Mutex::default() })
    }

    /// The words, to be kept; [`of_words`](Register::of_words) takes them.
    ///
    /// ```
    /// assert_eq!(dating::Register::fresh(2)?.words().len(), dating::calls::STATE_WORDS);
    /// # Ok::<(), dating::Refusal>(())
    /// ```
    #[must_use]
    pub fn words(&self) -> &[u32] {
        &self.words
    }

    pub(crate) fn words_mut(&mut self) -> &mut [u32] {
        &mut self.words
    }

    /// What is shown of a register: its marks, links and totals.
    fn shown(&self) -> Result<(Vec<Mark>, Vec<Link>, [u32; LETTERS]), Refusal> {
        Ok((self.marks()?, self.links()?.collect(), self.totals()?))
    }

    /// What is asked in space of so many words of work and of a list: that of the register, or fresh space if another question has it.
    pub(crate) fn in_space<T>(&self, work: usize, list: usize, ask: impl FnOnce(&[u32], &mut [u64], &mut [u32]) -> T) -> T {
        let (mut kept, mut fresh) = (self.space.try_lock(), Space::default());
        let space = kept.as_deref_mut().unwrap_or(&mut fresh);
        grow(&mut space.work, work);
        grow(&mut space.list, list);
        ask(&self.words, &mut space.work, &mut space.list)
    }

    /// The number of records.
    ///
    /// ```
    /// assert_eq!(dating::Register::fresh(9)?.size(), 9);
    /// # Ok::<(), dating::Refusal>(())
    /// ```
    #[must_use]
    pub fn size(&self) -> u16 {
        calls::size(&self.words) as u16
    }

    /// Puts a link in.
    ///
    /// ```
    /// # let mut register = dating::Register::fresh(2)?;
    /// register.add(0, 'a', 1)?;
    /// assert_eq!(register.add(0, 'a', 1), Err(dating::Refusal::Already));
    /// assert_eq!(register.add(0, 'a', 2), Err(dating::Refusal::Record));
    /// # Ok::<(), dating::Refusal>(())
    /// ```
    pub fn add(&mut self, from: u16, letter: char, to: u16) -> Result<(), Refusal> {
        done(calls::add(&mut self.words, from, label(letter), to))
    }

    /// Takes a link out.
    ///
    /// ```
    /// # let mut register = dating::Register::fresh(2)?;
    /// register.add(0, 'a', 1)?;
    /// register.remove(0, 'a', 1)?;
    /// assert_eq!(register.remove(0, 'a', 1), Err(dating::Refusal::Absent));
    /// # Ok::<(), dating::Refusal>(())
    /// ```
    pub fn remove(&mut self, from: u16, letter: char, to: u16) -> Result<(), Refusal> {
        done(calls::remove(&mut self.words, from, label(letter), to))
    }

    /// Locks a record: links at it are neither added nor removed.
    ///
    /// ```
    /// # let mut register = dating::Register::fresh(2)?;
    /// register.lock(1)?;
    /// assert_eq!(register.add(0, 'a', 1), Err(dating::Refusal::Locked));
    /// # Ok::<(), dating::Refusal>(())
    /// ```
    pub fn lock(&mut self, record: u16) -> Result<(), Refusal> {
        done(calls::lock(&mut self.words, record))
    }

    /// Takes a lock off a record.
    ///
    /// ```
    /// # let mut register = dating::Register::fresh(2)?;
    /// register.lock(1)?;
    /// register.unlock(1)?;
    /// register.add(0, 'a', 1)?;
    /// assert_eq!(register.unlock(1), Err(dating::Refusal::Absent));
    /// # Ok::<(), dating::Refusal>(())
    /// ```
    pub fn unlock(&mut self, record: u16) -> Result<(), Refusal> {
        done(calls::unlock(&mut self.words, record))
    }

    /// Withdraws a record that no link touches and that is not locked. It takes no link and no lock then, and supports nothing, not even itself:
    /// zero steps do not join it, and no chain begins or ends there.
    ///
    /// ```
    /// # let mut register = dating::Register::fresh(2)?;
    /// register.withdraw(1)?;
    /// assert_eq!(register.pairs("a*")?.collect::<Vec<_>>(), [(0, 0)]);
    /// assert_eq!(register.add(0, 'a', 1), Err(dating::Refusal::Withdrawn));
    /// register.reinstate(1)?;
    /// assert_eq!(register.pairs("a*")?.collect::<Vec<_>>(), [(0, 0), (1, 1)]);
    /// # Ok::<(), dating::Refusal>(())
    /// ```
    pub fn withdraw(&mut self, record: u16) -> Result<(), Refusal> {
        done(calls::withdraw(&mut self.words, record))
    }

    /// Takes a withdrawn record into use again.
    ///
    /// ```
    /// # let mut register = dating::Register::fresh(2)?;
    /// register.withdraw(1)?;
    /// register.reinstate(1)?;
    /// assert_eq!(register.reinstate(1), Err(dating::Refusal::Absent));
    /// # Ok::<(), dating::Refusal>(())
    /// ```
    pub fn reinstate(&mut self, record: u16) -> Result<(), Refusal> {
        done(calls::reinstate(&mut self.words, record))
    }

    /// Takes back the latest edit that is still held: of a link, a lock or a withdrawn record. At most 256 are held.
    ///
    /// ```
    /// # let mut register = dating::Register::fresh(2)?;
    /// register.add(0, 'a', 1)?;
    /// register.undo()?;
    /// assert_eq!(register.links()?.total(), 0);
    /// assert_eq!(register.undo(), Err(dating::Refusal::NoneHeld));
    /// # Ok::<(), dating::Refusal>(())
    /// ```
    pub fn undo(&mut self) -> Result<(), Refusal> {
        done(calls::undo(&mut self.words))
    }

    /// Whether the record is locked; false of a record that does not exist.
    ///
    /// ```
    /// # let mut register = dating::Register::fresh(2)?;
    /// register.lock(1)?;
    /// assert_eq!((register.is_locked(0), register.is_locked(1), register.is_locked(2)), (false, true, false));
    /// # Ok::<(), dating::Refusal>(())
    /// ```
    #[must_use]
    pub fn is_locked(&self, record: u16) -> bool {
        calls::locked(&self.words, record) == 1
    }

    /// Whether the record is withdrawn; false of a record that does not exist.
    ///
    /// ```
    /// # let mut register = dating::Register::fresh(2)?;
    /// register.withdraw(1)?;
    /// assert_eq!((register.is_withdrawn(0), register.is_withdrawn(1), register.is_withdrawn(2)), (false, true, false));
    /// # Ok::<(), dating::Refusal>(())
    /// ```
    #[must_use]
    pub fn is_withdrawn(&self, record: u16) -> bool {
        calls::withdrawn(&self.words, record) == 1
    }

    /// The number of links with this letter, which the register keeps: none is counted.
    ///
    /// ```
    /// # let mut register = dating::Register::fresh(3)?;
    /// register.add(0, 'a', 1)?;
    /// register.add(1, 'a', 2)?;
    /// assert_eq!((register.total('a')?, register.total('b')?), (2, 0));
    /// register.undo()?;
    /// assert_eq!(register.total('a')?, 1);
    /// assert_eq!(register.total('A'), Err(dating::Refusal::Label));
    /// # Ok::<(), dating::Refusal>(())
    /// ```
    pub fn total(&self, letter: char) -> Result<usize, Refusal> {
        counted(calls::total(&self.words, label(letter)))
    }

    /// The links present.
    ///
    /// ```
    /// # let mut register = dating::Register::fresh(3)?;
    /// register.add(1, 'b', 2)?;
    /// register.add(0, 'b', 1)?;
    /// register.add(2, 'a', 0)?;
    /// let links: Vec<(u16, char, u16)> = register.links()?.map(|link| (link.from, link.letter, link.to)).collect();
    /// assert_eq!(links, [(2, 'a', 0), (0, 'b', 1), (1, 'b', 2)]);
    /// # Ok::<(), dating::Refusal>(())
    /// ```
    pub fn links(&self) -> Result<Links<'static>, Refusal> {
        self.in_space(0, MAX_LINKS, |words, _, list| {
            let total = counted(calls::links(words, list))?;
            Ok(Links::new(list, total).own())
        })
    }

    /// The number of links with each letter, from a to z.
    ///
    /// ```
    /// # let mut register = dating::Register::fresh(3)?;
    /// register.add(1, 'b', 2)?;
    /// register.add(0, 'b', 1)?;
    /// assert_eq!(register.totals()?[..3], [0, 2, 0]);
    /// # Ok::<(), dating::Refusal>(())
    /// ```
    pub fn totals(&self) -> Result<[u32; LETTERS], Refusal> {
        let mut totals = [0; LETTERS];
        counted(calls::totals(&self.words, &mut totals))?;
        Ok(totals)
    }

    /// The mark of each record, ascending by record.
    ///
    /// ```
    /// use dating::Mark::{Free, Locked, Withdrawn};
    /// # let mut register = dating::Register::fresh(3)?;
    /// register.lock(1)?;
    /// register.withdraw(2)?;
    /// assert_eq!(register.marks()?, [Free, Locked, Withdrawn]);
    /// # Ok::<(), dating::Refusal>(())
    /// ```
    pub fn marks(&self) -> Result<Vec<Mark>, Refusal> {
        self.in_space(0, self.size().into(), |words, _, list| {
            let total = counted(calls::marks(words, list))?;
            Ok(list[..total].iter().map(|&mark| Mark::of(mark)).collect())
        })
    }

    /// The pairs of records that the expression joins, by the faster of the two engines: [`pairs_by_rows`](Register::pairs_by_rows), for
    /// every register. [`pairs_by_trees`](Register::pairs_by_trees) gives the same pairs.
    ///
    /// ```
    /// # let mut register = dating::Register::fresh(3)?;
    /// register.add(0, 'a', 1)?;
    /// register.add(1, 'a', 2)?;
    /// assert_eq!(register.pairs("a+")?.collect::<Vec<_>>(), [(0, 1), (0, 2), (1, 2)]);
    /// # Ok::<(), dating::Refusal>(())
    /// ```
    pub fn pairs(&self, expression: impl AsRef<[u8]>) -> Result<Pairs<'static>, Refusal> {
        self.pairs_by_rows(expression)
    }

    /// The first of the shortest chains from one record to another that spell a word of the expression; none if there is no chain.
    ///
    /// ```
    /// # let mut register = dating::Register::fresh(3)?;
    /// register.add(0, 'a', 1)?;
    /// register.add(2, 'b', 1)?;
    /// let steps = register.chain(0, 2, "a/^b")?.expect("a chain");
    /// assert_eq!(steps.map(|step| step.to_string()).collect::<Vec<_>>(), ["a + 1", "b - 2"]);
    /// assert!(register.chain(2, 0, "a+")?.is_none());
    /// # Ok::<(), dating::Refusal>(())
    /// ```
    pub fn chain(&self, from: u16, to: u16, expression: impl AsRef<[u8]>) -> Result<Option<Steps<'static>>, Refusal> {
        self.in_space(chain_work(self.size()), longest_chain(self.size()), |words, work, list| {
            let length = told(calls::chain(words, from, to, expression.as_ref(), work, list))?;
            Ok(length.map(|length| Steps::new(list, length).own()))
        })
    }

    /// The ends of a record: those that a chain leads to from it, spelling a word of the expression.
    ///
    /// ```
    /// # let mut register = dating::Register::fresh(4)?;
    /// register.add(0, 'a', 1)?;
    /// register.add(1, 'a', 2)?;
    /// assert_eq!(register.ends(0, "a+")?.collect::<Vec<_>>(), [1, 2]);
    /// assert_eq!(register.ends(3, "a*")?.collect::<Vec<_>>(), [3]);
    /// assert_eq!(register.ends(4, "a").err(), Some(dating::Refusal::Record));
    /// # Ok::<(), dating::Refusal>(())
    /// ```
    pub fn ends(&self, from: u16, expression: impl AsRef<[u8]>) -> Result<Records<'static>, Refusal> {
        self.in_space(0, self.size().into(), |words, _, list| {
            let total = counted(calls::ends(words, from, expression.as_ref(), list))?;
            Ok(Records::new(list, total).own())
        })
    }

    /// The starts of a record: those from which a chain leads to it.
    ///
    /// ```
    /// # let mut register = dating::Register::fresh(4)?;
    /// register.add(0, 'a', 1)?;
    /// register.add(1, 'a', 2)?;
    /// assert_eq!(register.starts(2, "a+")?.collect::<Vec<_>>(), [0, 1]);
    /// assert_eq!(register.ends(2, "^(a+)")?.collect::<Vec<_>>(), [0, 1]);
    /// # Ok::<(), dating::Refusal>(())
    /// ```
    pub fn starts(&self, to: u16, expression: impl AsRef<[u8]>) -> Result<Records<'static>, Refusal> {
        self.in_space(0, self.size().into(), |words, _, list| {
            let total = counted(calls::starts(words, to, expression.as_ref(), list))?;
            Ok(Records::new(list, total).own())
        })
    }

    /// The pairs of an expression in lent space: work of [`rows_work`](crate::rows_work) words, since the faster engine answers, and a list, which is left
    /// as it was with a refusal. A list that is too short for all pairs gets the smallest of them; [`Pairs::total`] tells how many there are.
    ///
    /// ```
    /// # let mut register = dating::Register::fresh(3)?;
    /// register.add(0, 'a', 1)?;
    /// register.add(1, 'a', 2)?;
    /// let (mut work, mut list) = (vec![0; dating::rows_work(3)], [0; 2]);
    /// let pairs = register.pairs_in("a+", &mut work, &mut list)?;
    /// assert_eq!((pairs.total(), pairs.collect::<Vec<_>>()), (3, vec![(0, 1), (0, 2)]));
    /// # Ok::<(), dating::Refusal>(())
    /// ```
    pub fn pairs_in<'a>(&self, expression: impl AsRef<[u8]>, work: &mut [u64], list: &'a mut [u32]) -> Result<Pairs<'a>, Refusal> {
        self.pairs_by_rows_in(expression, work, list)
    }

    /// The first chain in lent space: work of [`chain_work`] words, and a list, which is left as it was if there is no chain.
    ///
    /// ```
    /// # let mut register = dating::Register::fresh(3)?;
    /// register.add(0, 'a', 1)?;
    /// let (mut work, mut list) = (vec![0; dating::chain_work(3)], [0; 1]);
    /// let steps = register.chain_in(0, 1, "a", &mut work, &mut list)?.expect("a chain");
    /// assert_eq!(steps.map(|step| step.reached).collect::<Vec<_>>(), [1]);
    /// assert_eq!(register.chain_in(0, 1, "a", &mut work, &mut []).err(), Some(dating::Refusal::List));
    /// # Ok::<(), dating::Refusal>(())
    /// ```
    pub fn chain_in<'a>(
        &self,
        from: u16,
        to: u16,
        expression: impl AsRef<[u8]>,
        work: &mut [u64],
        list: &'a mut [u32],
    ) -> Result<Option<Steps<'a>>, Refusal> {
        let length = told(calls::chain(&self.words, from, to, expression.as_ref(), work, list))?;
        Ok(length.map(|length| Steps::new(list, length)))
    }
}

/// The same links, locks and held edits; the space for questions is its own.
impl Clone for Register {
    fn clone(&self) -> Register {
        Register { words: self.words.clone(), space: Mutex::default() }
    }
}

/// What a register is to whoever asks and undoes: two are equal if they show the same, and so after each undo, until neither has an edit held. Words that
/// no call reads play no part.
impl PartialEq for Register {
    fn eq(&self, other: &Register) -> bool {
        let (mut one, mut two) = (self.clone(), other.clone());
        while one.words != two.words {
            if one.shown() != two.shown() {
                return false;
            }
            let undone = one.undo();
            if two.undo() != undone {
                return false;
            }
            if undone.is_err() {
                break;
            }
        }
        true
    }
}

impl Eq for Register {}

impl Debug for Register {
    fn fmt(&self, f: &mut Formatter) -> fmt::Result {
        f.debug_struct("Register").field("size", &self.size()).finish_non_exhaustive()
    }
}

/// Whether a record is in use and may have links put in and taken out.
#[derive(Clone, Copy, Debug, PartialEq, Eq, Hash)]
pub enum Mark {
    Free,
    Locked,
    Withdrawn,
}

impl Mark {
    /// Of a word: no register has others than 0, 1 and 2.
    fn of(word: u32) -> Mark {
        match word {
            1 => Mark::Locked,
            WITHDRAWN => Mark::Withdrawn,
            _ => Mark::Free,
        }
    }
}

/// 0 to 25 for a to z; 255, which the engine refuses with 3, for any other.
pub(crate) fn label(letter: char) -> u8 {
    match letter {
        'a'..='z' => letter as u8 - b'a',
        _ => 255,
    }
}

/// Room for so many words.
fn grow<T: Clone + Default>(space: &mut Vec<T>, words: usize) {
    if space.len() < words {
        *space = vec![T::default(); words];
    }
}
