//! The tree calls of the static libraries. None of them asks anything of what it is lent.

use std::os::raw::c_void;

/// Space lent for reading or writing: a pointer, then a length.
type Lent = *const c_void;
type LentMut = *mut c_void;

extern "C" {
    fn dating_tree_make(n: usize, p: Lent, pl: usize, o: LentMut, ol: usize, w: LentMut, wl: usize) -> u64;
    fn dating_tree_list(n: usize, a: Lent, al: usize, o: LentMut, ol: usize, w: LentMut, wl: usize) -> u64;
    fn dating_tree_transpose(n: usize, a: Lent, al: usize, o: LentMut, ol: usize, w: LentMut, wl: usize) -> u64;
    fn dating_tree_closure(n: usize, a: Lent, al: usize, o: LentMut, ol: usize, w: LentMut, wl: usize) -> u64;
    fn dating_tree_union(n: usize, a: Lent, al: usize, b: Lent, bl: usize, o: LentMut, ol: usize, w: LentMut, wl: usize) -> u64;
    fn dating_tree_intersection(
        n: usize,
        a: Lent,
        al: usize,
        b: Lent,
        bl: usize,
        o: LentMut,
        ol: usize,
        w: LentMut,
        wl: usize,
    ) -> u64;
    fn dating_tree_difference(
        n: usize,
        a: Lent,
        al: usize,
        b: Lent,
        bl: usize,
        o: LentMut,
        ol: usize,
        w: LentMut,
        wl: usize,
    ) -> u64;
    fn dating_tree_product(
        n: usize,
        a: Lent,
        al: usize,
        sa: u8,
        b: Lent,
        bl: usize,
        sb: u8,
        o: LentMut,
        ol: usize,
        w: LentMut,
        wl: usize,
    ) -> u64;

    fn tree_union_in(w: LentMut, wl: usize, n: usize, la: usize, lb: usize) -> usize;
    fn tree_intersection_in(w: LentMut, wl: usize, n: usize, la: usize, lb: usize) -> usize;
    fn tree_difference_in(w: LentMut, wl: usize, n: usize, la: usize, lb: usize) -> usize;
    fn tree_product_in(w: LentMut, wl: usize, n: usize, la: usize, lb: usize, sa: u8, sb: u8) -> usize;
    fn tree_transpose_in(w: LentMut, wl: usize, n: usize, la: usize) -> usize;
    fn tree_closure_in(w: LentMut, wl: usize, n: usize, la: usize) -> usize;
    fn tree_identity_in(w: LentMut, wl: usize, n: usize, la: usize) -> usize;
    fn tree_letter_in(w: LentMut, wl: usize, n: usize, p: Lent, pl: usize) -> usize;
}

/// The number of words or pairs, or the number of a refusal.
pub type Answer = Result<usize, u64>;

fn told(answer: u64) -> Answer {
    match answer.checked_sub(1 << 33) {
        None => Ok(answer as usize),
        Some(cause) => Err(cause),
    }
}

fn lent<T>(space: &[T]) -> Lent {
    space.as_ptr().cast()
}

fn lent_mut<T>(space: &mut [T]) -> LentMut {
    space.as_mut_ptr().cast()
}

pub fn make(n: usize, pairs: &[u32], out: &mut [u64], work: &mut [u64]) -> Answer {
    told(unsafe { dating_tree_make(n, lent(pairs), pairs.len(), lent_mut(out), out.len(), lent_mut(work), work.len()) })
}

pub fn list(n: usize, a: &[u64], out: &mut [u32], work: &mut [u64]) -> Answer {
    told(unsafe { dating_tree_list(n, lent(a), a.len(), lent_mut(out), out.len(), lent_mut(work), work.len()) })
}

/// The operations on one tree.
#[derive(Clone, Copy, Debug, PartialEq)]
pub enum One {
    Transpose,
    Closure,
}

pub const ONES: [One; 2] = [One::Transpose, One::Closure];

pub fn one(op: One, n: usize, a: &[u64], out: &mut [u64], work: &mut [u64]) -> Answer {
    let call = match op {
        One::Transpose => dating_tree_transpose,
        One::Closure => dating_tree_closure,
    };
    told(unsafe { call(n, lent(a), a.len(), lent_mut(out), out.len(), lent_mut(work), work.len()) })
}

/// The operations on two trees; the product has a sense for each, 0 plain and any other inverted.
#[derive(Clone, Copy, Debug, PartialEq)]
pub enum Two {
    Union,
    Intersection,
    Difference,
    Product { sense: u8, other: u8 },
}

/// The product of both as they are.
pub const PRODUCT: Two = Two::Product { sense: 0, other: 0 };

/// The product with every choice of senses.
pub const TWOS: [Two; 7] = [
    Two::Union,
    Two::Intersection,
    Two::Difference,
    PRODUCT,
    Two::Product { sense: 0, other: 1 },
    Two::Product { sense: 255, other: 0 },
    Two::Product { sense: 1, other: 2 },
];

pub fn two(op: Two, n: usize, a: &[u64], b: &[u64], out: &mut [u64], work: &mut [u64]) -> Answer {
    let (al, bl, ol, wl) = (a.len(), b.len(), out.len(), work.len());
    let (a, b, out, work) = (lent(a), lent(b), lent_mut(out), lent_mut(work));
    told(unsafe {
        match op {
            Two::Union => dating_tree_union(n, a, al, b, bl, out, ol, work, wl),
            Two::Intersection => dating_tree_intersection(n, a, al, b, bl, out, ol, work, wl),
            Two::Difference => dating_tree_difference(n, a, al, b, bl, out, ol, work, wl),
            Two::Product { sense, other } => dating_tree_product(n, a, al, sense, b, bl, other, out, ol, work, wl),
        }
    })
}

/// The inner operations: on trees of so many words at the front of work, one after another, in whose place the result is left.
#[derive(Clone, Copy, Debug, PartialEq)]
pub enum Inner {
    Union,
    Intersection,
    Difference,
    Product { sense: u8, other: u8 },
    Transpose,
    Closure,
    Identity,
}

pub fn inner(op: Inner, work: &mut [u64], n: usize, la: usize, lb: usize) -> usize {
    let (w, wl) = (lent_mut(work), work.len());
    unsafe {
        match op {
            Inner::Union => tree_union_in(w, wl, n, la, lb),
            Inner::Intersection => tree_intersection_in(w, wl, n, la, lb),
            Inner::Difference => tree_difference_in(w, wl, n, la, lb),
            Inner::Product { sense, other } => tree_product_in(w, wl, n, la, lb, sense, other),
            Inner::Transpose => tree_transpose_in(w, wl, n, la),
            Inner::Closure => tree_closure_in(w, wl, n, la),
            Inner::Identity => tree_identity_in(w, wl, n, la),
        }
    }
}

/// The tree of the pairs of link words, left at the front of work.
pub fn letter(work: &mut [u64], n: usize, words: &[u32]) -> usize {
    unsafe { tree_letter_in(lent_mut(work), work.len(), n, lent(words), words.len()) }
}
