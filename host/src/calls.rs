//! The engine's functions as they are exported from `crates/host`: numbers and slices.
//!
//! A `u32` answer is 0 or the number of a refusal. A `u64` answer is a total, or the number of words of the answer; [`NO_CHAIN`] if there is no
//! chain, [`CANNOT_HOLD`] if ties cannot all hold; [`LOOP`] + the number of steps of a loop; [`REFUSED`] + the number of a refusal. Links,
//! pairs, ends and starts may be more than the list takes: the number is the total, of which the first min(total, list.len()) are written. A refused
//! call leaves the state and the list as they were, and words of a list past the answer are never touched; work may hold anything after a call. A state may
//! be longer than a register's words: its front is the register, and no call touches the words past it. Words that are no register's (too few, a
//! counter out of range, a mark above 2) are refused with 16.
//!
//! Edits, and what is read of a register:
//!
//! ```
//! use dating::calls::*;
//!
//! let mut state = vec![0; STATE_WORDS];
//! assert_eq!((fresh(1025, &mut state), fresh(4, &mut state)), (1, 0));
//! assert_eq!((add(&mut state, 0, 2, 1), add(&mut state, 1, 0, 2), add(&mut state, 0, 2, 1)), (0, 0, 5));
//! assert_eq!((remove(&mut state, 1, 0, 2), remove(&mut state, 1, 0, 2)), (0, 6));
//! assert_eq!((lock(&mut state, 2), withdraw(&mut state, 2), unlock(&mut state, 2)), (0, 4, 0));
//! assert_eq!((withdraw(&mut state, 2), reinstate(&mut state, 2), withdraw(&mut state, 3)), (0, 0, 0));
//! assert_eq!((size(&state), locked(&state, 2), withdrawn(&state, 3), total(&state, 2)), (4, 0, 1, 1));
//! let mut list = [9; 3];
//! assert_eq!((links(&state, &mut list), list), (1, [2 * 1024 * 1024 + 1, 9, 9]));
//! let mut numbers = [9; 4];
//! assert_eq!((close_up(&mut state, &mut numbers), numbers), (0, [0, 1, 2, NO_NUMBER]));
//! assert_eq!((undo(&mut state), done(undo(&mut state))), (8, Err(dating::Refusal::NoneHeld)));
//! ```
//!
//! Edits made all or none: unlock 2, add the link a from 1 to 2, lock 2 again. With the link twice nothing is made, and the answer tells the place:
//!
//! ```
//! use dating::calls::*;
//!
//! let mut state = vec![0; STATE_WORDS];
//! fresh(4, &mut state);
//! lock(&mut state, 2);
//! let (unlock_2, add_1_a_2, lock_2) = (5 << 40 | 2 << 24, 2 << 40 | 1 << 24 | 2, 4 << 40 | 2 << 24);
//! let before = state.clone();
//! assert_eq!(apply_all(&mut state, &[unlock_2, add_1_a_2, add_1_a_2, lock_2]), REFUSED + PLACE * 2 + 5);
//! assert_eq!(applied(apply_all(&mut state, &[lock_2])), Err((0, dating::Refusal::Already)));
//! assert_eq!(state, before);
//! assert_eq!((apply_all(&mut state, &[unlock_2, add_1_a_2, lock_2]), locked(&state, 2), total(&state, 0)), (3, 1, 1));
//! assert_eq!((undo(&mut state), locked(&state, 2)), (0, 0));
//! ```
//!
//! Totals and marks, each as one list, of which the first are written if it is short:
//!
//! ```
//! use dating::calls::*;
//!
//! let mut state = vec![0; STATE_WORDS];
//! fresh(4, &mut state);
//! add(&mut state, 0, 1, 1);
//! lock(&mut state, 2);
//! withdraw(&mut state, 3);
//! let (mut list, mut few) = ([9; 5], [9; 2]);
//! assert_eq!((marks(&state, &mut list), list), (4, [0, 0, 1, 2, 9]));
//! assert_eq!((totals(&state, &mut few), few), (26, [0, 1]));
//! assert_eq!(marks(&[], &mut list), REFUSED + 16);
//! ```
//!
//! Questions. The state has links a from 0 to 1 and from 1 to 2:
//!
//! ```
//! use dating::{calls::*, chain_work, rows_work, support_work, tree_work, Tie};
//!
//! let mut state = vec![0; STATE_WORDS];
//! fresh(3, &mut state);
//! add(&mut state, 0, 0, 1);
//! add(&mut state, 1, 0, 2);
//! let (mut work, mut list) = (vec![0; support_work(3)], [9; 4]);
//! assert_eq!((pairs(&state, b"a+", &mut work[..tree_work(3)], &mut list), list), (3, [1, 2, 1024 + 2, 9]));
//! assert_eq!(pairs_by_rows(&state, b"a+", &mut work[..rows_work(3)], &mut []), 3);
//! assert_eq!(preview(&state, 3, 0, 0, 1, b"a+", &mut work, &mut []), 1); // with the first link removed, which it is not
//! assert_eq!((chain(&state, 0, 2, b"a+", &mut work[..chain_work(3)], &mut list), &list[..2]), (2, &[1, 2][..]));
//! assert_eq!(told(chain(&state, 2, 0, b"a+", &mut work, &mut list)), Ok(None));
//! assert_eq!((ends(&state, 0, b"a+", &mut list), &list[..2]), (2, &[1, 2][..]));
//! assert_eq!((starts(&state, 2, b"a+", &mut list[..1]), list[0]), (2, 0)); // two in all, one of which fits
//! assert_eq!((generations(&state, &[0], &mut work, &mut list), &list[..3]), (3, &[0, 1, 2][..]));
//! assert_eq!(numbered(generations(&state, &[26], &mut work, &mut list)), Err(dating::Refusal::Label));
//! assert_eq!((sole_support(&state, 1, b"a+", &[2], &mut work, &mut list), list[0]), (1, 0)); // 0 falls with 1
//!
//! let mut page = [0; 2 * 73];
//! assert_eq!(pages(&state, b"a+", &mut work, &mut page), 2 * 73);
//! assert_eq!((read_pages(b"a+", &page, &mut list), list), (3, [1, 2, 1024 + 2, 9]));
//!
//! let ties = [Tie { first: 0, second: 1, least: 5, most: 7 }];
//! let (mut work, mut limits) = ([0; 192], [9; 6]);
//! assert_eq!((offsets(&state, 0, &ties, &mut work, &mut limits), limits), (6, [0, 0, 5, 7, 1, 0])); // 2 is free
//! ```
//!
//! Trees, of pairs below 2, each one square of four bits:
//!
//! ```
//! use dating::{calls::*, tree_work};
//!
//! let (mut work, mut out, mut list) = (vec![0; tree_work(2)], [0], [0; 4]);
//! assert_eq!((tree_make(2, &[1024, 1], &mut out, &mut work), out), (1, [0b0110]));
//! assert_eq!((tree_list(2, &[0b0110], &mut list, &mut work), &list[..2]), (2, &[1, 1024][..]));
//! assert_eq!((tree_union(2, &[0b0010], &[0b0100], &mut out, &mut work), out), (1, [0b0110]));
//! assert_eq!((tree_intersection(2, &[0b0011], &[0b0010], &mut out, &mut work), out), (1, [0b0010]));
//! assert_eq!((tree_difference(2, &[0b0011], &[0b0010], &mut out, &mut work), out), (1, [0b0001]));
//! assert_eq!((tree_product(2, &[0b0010], 0, &[0b0010], 1, &mut out, &mut work), out), (1, [0b0001]));
//! assert_eq!((tree_transpose(2, &[0b0010], &mut out, &mut work), out), (1, [0b0100]));
//! assert_eq!((tree_closure(2, &[0b0110], &mut out, &mut work), out), (1, [0b1111]));
//! assert_eq!(counted(tree_list(2, &[0], &mut list, &mut work)), Err(dating::Refusal::Tree));
//! ```

use crate::{Refusal, Tie};

/// The words of a register. What stands where among them is the engine's alone: calls read it. Words saved before the totals were kept, which are fewer,
/// are refused with 16.
pub const STATE_WORDS: usize = 5406;

/// The mark of a withdrawn record.
pub const WITHDRAWN: u32 = 2;

/// The answer to a chain question if there is no chain.
pub const NO_CHAIN: u64 = 1 << 32;

/// What is added to the number of steps of a loop in the answer of [`generations`].
pub const LOOP: u64 = 1 << 32;

/// The answer to offsets if no placing meets all ties.
pub const CANNOT_HOLD: u64 = 1 << 32;

/// What is added to the number of a refusal in a `u64` answer.
pub const REFUSED: u64 = 1 << 33;

/// What stands in the list of new numbers for a withdrawn record.
pub const NO_NUMBER: u16 = u16::MAX;

/// An answer of 0 or a number.
pub fn done(answer: u32) -> Result<(), Refusal> {
    match answer {
        0 => Ok(()),
        number => Err(refusal(number)),
    }
}

/// An answer that is a count or refused.
pub fn counted(answer: u64) -> Result<usize, Refusal> {
    told(answer).map(|count| count.expect("only a chain question is answered with no chain"))
}

/// An answer that is a count, or none (no chain, or ties that cannot all hold), or refused.
pub fn told(answer: u64) -> Result<Option<usize>, Refusal> {
    match answer {
        0..NO_CHAIN => Ok(Some(answer as usize)),
        NO_CHAIN => Ok(None),
        _ => Err(refusal(answer.wrapping_sub(REFUSED) as u32)),
    }
}

/// An answer of [`generations`]: whether it is a loop, and how many words it has; or refused.
pub fn numbered(answer: u64) -> Result<(bool, usize), Refusal> {
    match answer {
        0..LOOP => Ok((false, answer as usize)),
        LOOP..REFUSED => Ok((true, (answer - LOOP) as usize)),
        _ => Err(refusal((answer - REFUSED) as u32)),
    }
}

/// By what the place of a refused edit is multiplied in an answer of [`apply_all`].
pub const PLACE: u64 = 32;

/// An answer of [`apply_all`]: all made, or the place of the first edit that is refused, and why.
pub fn applied(answer: u64) -> Result<(), (usize, Refusal)> {
    match answer.checked_sub(REFUSED) {
        None => Ok(()),
        Some(told) => Err(((told / PLACE) as usize, refusal((told % PLACE) as u32))),
    }
}

/// Every refusal has the number of a cause: so it is proved of every call (`caused` of `register/Calls`, `pairs/Asking`, `chains/Replies`,
/// `generations/Generating`, `support/Support`; `Totals` of `register/Questions`).
fn refusal(number: u32) -> Refusal {
    Refusal::of(number).expect("a refusal has the number of a cause")
}

// A slice is lent as a pointer to its first word and its length. `host/declarations` writes these, and the
// parameters and bodies of the functions below, from the Rattle source.
unsafe extern "C" {
    fn dating_fresh(n: u16, state: *mut u32, state_len: usize) -> u32;
    fn dating_add(state: *mut u32, state_len: usize, from: u16, label: u8, to: u16) -> u32;
    fn dating_remove(state: *mut u32, state_len: usize, from: u16, label: u8, to: u16) -> u32;
    fn dating_lock(state: *mut u32, state_len: usize, record: u16) -> u32;
    fn dating_unlock(state: *mut u32, state_len: usize, record: u16) -> u32;
    fn dating_withdraw(state: *mut u32, state_len: usize, record: u16) -> u32;
    fn dating_reinstate(state: *mut u32, state_len: usize, record: u16) -> u32;
    fn dating_undo(state: *mut u32, state_len: usize) -> u32;
    fn dating_size(state: *const u32, state_len: usize) -> u32;
    fn dating_links(state: *const u32, state_len: usize, list: *mut u32, list_len: usize) -> u64;
    fn dating_locked(state: *const u32, state_len: usize, record: u16) -> u32;
    fn dating_withdrawn(state: *const u32, state_len: usize, record: u16) -> u32;
    fn dating_total(state: *const u32, state_len: usize, label: u8) -> u64;
    fn dating_pairs(
        state: *const u32,
        state_len: usize,
        text: *const u8,
        text_len: usize,
        work: *mut u64,
        work_len: usize,
        list: *mut u32,
        list_len: usize,
    ) -> u64;
    fn dating_chain(
        state: *const u32,
        state_len: usize,
        from: u16,
        to: u16,
        text: *const u8,
        text_len: usize,
        work: *mut u64,
        work_len: usize,
        list: *mut u32,
        list_len: usize,
    ) -> u64;
    fn dating_ends(
        state: *const u32,
        state_len: usize,
        from: u16,
        text: *const u8,
        text_len: usize,
        list: *mut u32,
        list_len: usize,
    ) -> u64;
    fn dating_starts(
        state: *const u32,
        state_len: usize,
        to: u16,
        text: *const u8,
        text_len: usize,
        list: *mut u32,
        list_len: usize,
    ) -> u64;
    fn dating_totals(state: *const u32, state_len: usize, list: *mut u32, list_len: usize) -> u64;
    fn dating_marks(state: *const u32, state_len: usize, list: *mut u32, list_len: usize) -> u64;
    fn dating_tree_make(
        n: usize,
        pairs: *const u32,
        pairs_len: usize,
        tree: *mut u64,
        tree_len: usize,
        work: *mut u64,
        work_len: usize,
    ) -> u64;
    fn dating_tree_list(
        n: usize,
        tree: *const u64,
        tree_len: usize,
        list: *mut u32,
        list_len: usize,
        work: *mut u64,
        work_len: usize,
    ) -> u64;
    fn dating_tree_union(
        n: usize,
        a: *const u64,
        a_len: usize,
        b: *const u64,
        b_len: usize,
        out: *mut u64,
        out_len: usize,
        work: *mut u64,
        work_len: usize,
    ) -> u64;
    fn dating_tree_intersection(
        n: usize,
        a: *const u64,
        a_len: usize,
        b: *const u64,
        b_len: usize,
        out: *mut u64,
        out_len: usize,
        work: *mut u64,
        work_len: usize,
    ) -> u64;
    fn dating_tree_difference(
        n: usize,
        a: *const u64,
        a_len: usize,
        b: *const u64,
        b_len: usize,
        out: *mut u64,
        out_len: usize,
        work: *mut u64,
        work_len: usize,
    ) -> u64;
    fn dating_tree_product(
        n: usize,
        a: *const u64,
        a_len: usize,
        a_sense: u8,
        b: *const u64,
        b_len: usize,
        b_sense: u8,
        out: *mut u64,
        out_len: usize,
        work: *mut u64,
        work_len: usize,
    ) -> u64;
    fn dating_tree_transpose(
        n: usize,
        a: *const u64,
        a_len: usize,
        out: *mut u64,
        out_len: usize,
        work: *mut u64,
        work_len: usize,
    ) -> u64;
    fn dating_tree_closure(
        n: usize,
        a: *const u64,
        a_len: usize,
        out: *mut u64,
        out_len: usize,
        work: *mut u64,
        work_len: usize,
    ) -> u64;
    fn dating_preview(
        state: *const u32,
        state_len: usize,
        kind: u16,
        from: u16,
        label: u8,
        to: u16,
        text: *const u8,
        text_len: usize,
        work: *mut u64,
        work_len: usize,
        list: *mut u32,
        list_len: usize,
    ) -> u64;
    fn dating_apply_all(state: *mut u32, state_len: usize, calls: *const u64, calls_len: usize) -> u64;
    fn dating_close_up(state: *mut u32, state_len: usize, numbers: *mut u16, numbers_len: usize) -> u32;
    fn dating_generations(
        state: *const u32,
        state_len: usize,
        labels: *const u8,
        labels_len: usize,
        work: *mut u64,
        work_len: usize,
        list: *mut u32,
        list_len: usize,
    ) -> u64;
    fn dating_sole_support(
        state: *const u32,
        state_len: usize,
        core: u16,
        text: *const u8,
        text_len: usize,
        anchors: *const u16,
        anchors_len: usize,
        work: *mut u64,
        work_len: usize,
        list: *mut u32,
        list_len: usize,
    ) -> u64;
    fn dating_pages(
        state: *const u32,
        state_len: usize,
        text: *const u8,
        text_len: usize,
        work: *mut u64,
        work_len: usize,
        pages: *mut u8,
        pages_len: usize,
    ) -> u64;
    fn dating_read_pages(
        text: *const u8,
        text_len: usize,
        pages: *const u8,
        pages_len: usize,
        list: *mut u32,
        list_len: usize,
    ) -> u64;
    fn dating_pairs_by_rows(
        state: *const u32,
        state_len: usize,
        text: *const u8,
        text_len: usize,
        work: *mut u64,
        work_len: usize,
        list: *mut u32,
        list_len: usize,
    ) -> u64;
    fn dating_offsets(
        state: *const u32,
        state_len: usize,
        base: u16,
        ties: *const Tie,
        ties_len: usize,
        work: *mut i64,
        work_len: usize,
        list: *mut i32,
        list_len: usize,
    ) -> u64;
}

// SAFETY, of each: the function is the declared one, and has no `requires`; it is proved to end, and to read and write nothing but the
// slices that it is lent, which are valid for the length that stands beside them and, where they are written, lent to nobody else.

/// A fresh register's words at the front of a state: 0, or 1; 12 if it has fewer than [`STATE_WORDS`].
pub fn fresh(n: u16, state: &mut [u32]) -> u32 {
    unsafe { dating_fresh(n, state.as_mut_ptr(), state.len()) }
}

/// Puts a link in: 0, or the number of the refusal; so are all edits answered.
pub fn add(state: &mut [u32], from: u16, label: u8, to: u16) -> u32 {
    unsafe { dating_add(state.as_mut_ptr(), state.len(), from, label, to) }
}

/// Takes a link out.
pub fn remove(state: &mut [u32], from: u16, label: u8, to: u16) -> u32 {
    unsafe { dating_remove(state.as_mut_ptr(), state.len(), from, label, to) }
}

/// Locks a record.
pub fn lock(state: &mut [u32], record: u16) -> u32 {
    unsafe { dating_lock(state.as_mut_ptr(), state.len(), record) }
}

/// Takes the lock off.
pub fn unlock(state: &mut [u32], record: u16) -> u32 {
    unsafe { dating_unlock(state.as_mut_ptr(), state.len(), record) }
}

/// Withdraws a record that no link touches and that is not locked.
pub fn withdraw(state: &mut [u32], record: u16) -> u32 {
    unsafe { dating_withdraw(state.as_mut_ptr(), state.len(), record) }
}

/// Takes a withdrawn record into use again.
pub fn reinstate(state: &mut [u32], record: u16) -> u32 {
    unsafe { dating_reinstate(state.as_mut_ptr(), state.len(), record) }
}

/// Takes back the latest held edit.
pub fn undo(state: &mut [u32]) -> u32 {
    unsafe { dating_undo(state.as_mut_ptr(), state.len()) }
}

/// n; 0 if the words are no register's.
pub fn size(state: &[u32]) -> u32 {
    unsafe { dating_size(state.as_ptr(), state.len()) }
}

/// The links' words, (label × 1,024 + from) × 1,024 + to, ascending.
pub fn links(state: &[u32], list: &mut [u32]) -> u64 {
    unsafe { dating_links(state.as_ptr(), state.len(), list.as_mut_ptr(), list.len()) }
}

/// 1 if the record is locked, else 0.
pub fn locked(state: &[u32], record: u16) -> u32 {
    unsafe { dating_locked(state.as_ptr(), state.len(), record) }
}

/// 1 if the record is withdrawn, else 0.
pub fn withdrawn(state: &[u32], record: u16) -> u32 {
    unsafe { dating_withdrawn(state.as_ptr(), state.len(), record) }
}

/// The number of links with a label, or 3; nothing is counted.
pub fn total(state: &[u32], label: u8) -> u64 {
    unsafe { dating_total(state.as_ptr(), state.len(), label) }
}

/// The pair words, from × 1,024 + to, ascending. Work: [`tree_work`](crate::tree_work).
pub fn pairs(state: &[u32], text: &[u8], work: &mut [u64], list: &mut [u32]) -> u64 {
    unsafe {
        dating_pairs(
            state.as_ptr(),
            state.len(),
            text.as_ptr(),
            text.len(),
            work.as_mut_ptr(),
            work.len(),
            list.as_mut_ptr(),
            list.len(),
        )
    }
}

/// The step words, (label × 2 + sense) × 1,024 + record reached. Work: [`chain_work`](crate::chain_work).
pub fn chain(state: &[u32], from: u16, to: u16, text: &[u8], work: &mut [u64], list: &mut [u32]) -> u64 {
    unsafe {
        dating_chain(
            state.as_ptr(),
            state.len(),
            from,
            to,
            text.as_ptr(),
            text.len(),
            work.as_mut_ptr(),
            work.len(),
            list.as_mut_ptr(),
            list.len(),
        )
    }
}

/// The ends of a record, ascending: as many as the list takes, and how many they are in all.
pub fn ends(state: &[u32], from: u16, text: &[u8], list: &mut [u32]) -> u64 {
    unsafe { dating_ends(state.as_ptr(), state.len(), from, text.as_ptr(), text.len(), list.as_mut_ptr(), list.len()) }
}

/// The starts of a record, likewise.
pub fn starts(state: &[u32], to: u16, text: &[u8], list: &mut [u32]) -> u64 {
    unsafe { dating_starts(state.as_ptr(), state.len(), to, text.as_ptr(), text.len(), list.as_mut_ptr(), list.len()) }
}

/// The 26 totals, from label 0 on.
pub fn totals(state: &[u32], list: &mut [u32]) -> u64 {
    unsafe { dating_totals(state.as_ptr(), state.len(), list.as_mut_ptr(), list.len()) }
}

/// The marks of the n records, from record 0 on: 0 free, 1 locked, 2 withdrawn.
pub fn marks(state: &[u32], list: &mut [u32]) -> u64 {
    unsafe { dating_marks(state.as_ptr(), state.len(), list.as_mut_ptr(), list.len()) }
}

/// The tree of pair words in any order. Work of every tree call: [`tree_work`](crate::tree_work).
pub fn tree_make(n: usize, pairs: &[u32], tree: &mut [u64], work: &mut [u64]) -> u64 {
    unsafe { dating_tree_make(n, pairs.as_ptr(), pairs.len(), tree.as_mut_ptr(), tree.len(), work.as_mut_ptr(), work.len()) }
}

/// The pair words of a tree, ascending.
pub fn tree_list(n: usize, tree: &[u64], list: &mut [u32], work: &mut [u64]) -> u64 {
    unsafe { dating_tree_list(n, tree.as_ptr(), tree.len(), list.as_mut_ptr(), list.len(), work.as_mut_ptr(), work.len()) }
}

/// The pairs in either.
pub fn tree_union(n: usize, a: &[u64], b: &[u64], out: &mut [u64], work: &mut [u64]) -> u64 {
    unsafe {
        dating_tree_union(n, a.as_ptr(), a.len(), b.as_ptr(), b.len(), out.as_mut_ptr(), out.len(), work.as_mut_ptr(), work.len())
    }
}

/// The pairs in both.
pub fn tree_intersection(n: usize, a: &[u64], b: &[u64], out: &mut [u64], work: &mut [u64]) -> u64 {
    unsafe {
        dating_tree_intersection(
            n,
            a.as_ptr(),
            a.len(),
            b.as_ptr(),
            b.len(),
            out.as_mut_ptr(),
            out.len(),
            work.as_mut_ptr(),
            work.len(),
        )
    }
}

/// The pairs in the first and not in the second.
pub fn tree_difference(n: usize, a: &[u64], b: &[u64], out: &mut [u64], work: &mut [u64]) -> u64 {
    unsafe {
        dating_tree_difference(
            n,
            a.as_ptr(),
            a.len(),
            b.as_ptr(),
            b.len(),
            out.as_mut_ptr(),
            out.len(),
            work.as_mut_ptr(),
            work.len(),
        )
    }
}

/// The pairs joined through a record in the middle. Each operand is read with its sense: 0 plain, any other inverted.
pub fn tree_product(n: usize, a: &[u64], a_sense: u8, b: &[u64], b_sense: u8, out: &mut [u64], work: &mut [u64]) -> u64 {
    unsafe {
        dating_tree_product(
            n,
            a.as_ptr(),
            a.len(),
            a_sense,
            b.as_ptr(),
            b.len(),
            b_sense,
            out.as_mut_ptr(),
            out.len(),
            work.as_mut_ptr(),
            work.len(),
        )
    }
}

/// Each pair exchanged.
pub fn tree_transpose(n: usize, a: &[u64], out: &mut [u64], work: &mut [u64]) -> u64 {
    unsafe { dating_tree_transpose(n, a.as_ptr(), a.len(), out.as_mut_ptr(), out.len(), work.as_mut_ptr(), work.len()) }
}

/// The pairs joined by one or more, one after the other.
pub fn tree_closure(n: usize, a: &[u64], out: &mut [u64], work: &mut [u64]) -> u64 {
    unsafe { dating_tree_closure(n, a.as_ptr(), a.len(), out.as_mut_ptr(), out.len(), work.as_mut_ptr(), work.len()) }
}

/// The pairs if an edit or undo were made. The kind is a frame's: 2 add, 3 remove, 4 lock, 5 unlock, 6 undo, 10 withdraw, 11 reinstate; any other is
/// refused with 15, before 16. A record alone is `from`.
#[allow(clippy::too_many_arguments)]
pub fn preview(state: &[u32], kind: u16, from: u16, label: u8, to: u16, text: &[u8], work: &mut [u64], list: &mut [u32]) -> u64 {
    unsafe {
        dating_preview(
            state.as_ptr(),
            state.len(),
            kind,
            from,
            label,
            to,
            text.as_ptr(),
            text.len(),
            work.as_mut_ptr(),
            work.len(),
            list.as_mut_ptr(),
            list.len(),
        )
    }
}

/// A list of edits and undos made as one, every call of it or none. A call is a word: its kind, as that of a preview, times 2^40, from or the record
/// times 2^24, the label times 2^16, and to. The number of calls if all were accepted; else [`REFUSED`] + 32 times the place of the first refused one,
/// from 0, + its number.
pub fn apply_all(state: &mut [u32], calls: &[u64]) -> u64 {
    unsafe { dating_apply_all(state.as_mut_ptr(), state.len(), calls.as_ptr(), calls.len()) }
}

/// Closes up the numbers: 0, or 21 or 13. The list takes, for each old number ascending, the new one, or [`NO_NUMBER`] for a withdrawn record;
/// it is at least as long as the old n.
pub fn close_up(state: &mut [u32], numbers: &mut [u16]) -> u32 {
    unsafe { dating_close_up(state.as_mut_ptr(), state.len(), numbers.as_mut_ptr(), numbers.len()) }
}

/// The length of the longest run to each record in use, or the first loop: [`LOOP`] + its number of steps. Work: [`chain_work`](crate::chain_work).
pub fn generations(state: &[u32], labels: &[u8], work: &mut [u64], list: &mut [u32]) -> u64 {
    unsafe {
        dating_generations(
            state.as_ptr(),
            state.len(),
            labels.as_ptr(),
            labels.len(),
            work.as_mut_ptr(),
            work.len(),
            list.as_mut_ptr(),
            list.len(),
        )
    }
}

/// The records that fall with the core, ascending. Work: [`support_work`](crate::support_work).
pub fn sole_support(state: &[u32], core: u16, text: &[u8], anchors: &[u16], work: &mut [u64], list: &mut [u32]) -> u64 {
    unsafe {
        dating_sole_support(
            state.as_ptr(),
            state.len(),
            core,
            text.as_ptr(),
            text.len(),
            anchors.as_ptr(),
            anchors.len(),
            work.as_mut_ptr(),
            work.len(),
            list.as_mut_ptr(),
            list.len(),
        )
    }
}

/// The pages of a pair question's answer: how many bytes they are. A space that cannot hold every page is refused with 13.
pub fn pages(state: &[u32], text: &[u8], work: &mut [u64], pages: &mut [u8]) -> u64 {
    unsafe {
        dating_pages(
            state.as_ptr(),
            state.len(),
            text.as_ptr(),
            text.len(),
            work.as_mut_ptr(),
            work.len(),
            pages.as_mut_ptr(),
            pages.len(),
        )
    }
}

/// The pairs that pages of the expression show: how many they are. Bytes that are not its pages and those of some ascending list of pairs are
/// refused with 14, and a list that cannot take every pair with 13.
pub fn read_pages(text: &[u8], pages: &[u8], list: &mut [u32]) -> u64 {
    unsafe { dating_read_pages(text.as_ptr(), text.len(), pages.as_ptr(), pages.len(), list.as_mut_ptr(), list.len()) }
}

/// The pair words as [`pairs`] gives them, by the engine on rows of bits. Work: [`rows_work`](crate::rows_work).
pub fn pairs_by_rows(state: &[u32], text: &[u8], work: &mut [u64], list: &mut [u32]) -> u64 {
    unsafe {
        dating_pairs_by_rows(
            state.as_ptr(),
            state.len(),
            text.as_ptr(),
            text.len(),
            work.as_mut_ptr(),
            work.len(),
            list.as_mut_ptr(),
            list.len(),
        )
    }
}

/// Two words to a record: the least and the most that it begins after the base, or 1 and 0 if it is free. Work: [`offsets_work`](crate::offsets_work).
pub fn offsets(state: &[u32], base: u16, ties: &[Tie], work: &mut [i64], list: &mut [i32]) -> u64 {
    unsafe {
        dating_offsets(
            state.as_ptr(),
            state.len(),
            base,
            ties.as_ptr(),
            ties.len(),
            work.as_mut_ptr(),
            work.len(),
            list.as_mut_ptr(),
            list.len(),
        )
    }
}
