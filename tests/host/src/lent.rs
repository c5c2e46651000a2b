//! Space to lend: a slice ends right before a page that may not be touched, and begins right after words that are looked
//! at after the call. Or, for valgrind, each slice is a block of its own on the heap.

use std::ffi::{c_int, c_void};
use std::mem::size_of;

const PAGE: usize = 4096;
const NO_ACCESS: c_int = 0;
const READ_WRITE: c_int = 1 | 2;
const PRIVATE_ANONYMOUS: c_int = 2 | 0x20;

// Of the C library, as Linux has it on x86-64.
extern "C" {
    fn mmap(address: *mut c_void, length: usize, access: c_int, flags: c_int, file: c_int, offset: i64) -> *mut c_void;
    fn mprotect(address: *mut c_void, length: usize, access: c_int) -> c_int;
}

/// A number that is lent.
pub trait Word: Copy + Eq + 'static {
    const BEFORE: Self;
    fn of(number: u64) -> Self;
}

impl Word for u8 {
    const BEFORE: u8 = 0xa7;
    fn of(number: u64) -> u8 {
        number as u8
    }
}

impl Word for u16 {
    const BEFORE: u16 = 0xa7b3;
    fn of(number: u64) -> u16 {
        number as u16
    }
}

impl Word for u32 {
    const BEFORE: u32 = 0xa7b3_c5d9;
    fn of(number: u64) -> u32 {
        number as u32
    }
}

impl Word for u64 {
    const BEFORE: u64 = 0xa7b3_c5d9_e1f3_0517;
    fn of(number: u64) -> u64 {
        number
    }
}

/// How many words before a slice are looked at.
const WATCHED: usize = 64;

/// Lends slices of up to some length, one at a time.
pub enum Lender<T: 'static> {
    Guarded { words: &'static mut [T], lent: usize },
    Heap(Box<[T]>),
}

impl<T: Word> Lender<T> {
    /// With pages that are never given back.
    pub fn guarded(capacity: usize) -> Lender<T> {
        let length = ((capacity + WATCHED) * size_of::<T>()).next_multiple_of(PAGE);
        // SAFETY: the pages are fresh and nobody else's; all but the last are read and written, and zeros are words.
        let words = unsafe {
            let start = mmap(std::ptr::null_mut(), length + PAGE, READ_WRITE, PRIVATE_ANONYMOUS, -1, 0);
            assert_ne!(start as isize, -1, "no memory");
            assert_eq!(mprotect(start.byte_add(length), PAGE, NO_ACCESS), 0);
            std::slice::from_raw_parts_mut(start.cast::<T>(), length / size_of::<T>())
        };
        let mut lender = Lender::Guarded { words, lent: 0 };
        lender.lend(0);
        lender
    }

    pub fn heap() -> Lender<T> {
        Lender::Heap(Box::new([]))
    }

    /// A slice of so many words, which hold anything.
    pub fn lend(&mut self, length: usize) -> &mut [T] {
        match self {
            Lender::Guarded { words, lent } => {
                *lent = length;
                let start = words.len() - length;
                words[start - WATCHED..start].fill(T::BEFORE);
                &mut words[start..]
            }
            Lender::Heap(words) => {
                *words = (0..length as u64).map(|at| T::of(at.wrapping_mul(0x9e37_79b9_7f4a_7c15))).collect();
                words
            }
        }
    }

    /// A slice with these words.
    pub fn lend_words(&mut self, of: &[T]) -> &mut [T] {
        let words = self.lend(of.len());
        words.copy_from_slice(of);
        words
    }

    /// Whether the words before the slice lent last are as they were.
    pub fn intact(&self) -> bool {
        match self {
            Lender::Guarded { words, lent } => {
                let start = words.len() - lent;
                words[start - WATCHED..start].iter().all(|&word| word == T::BEFORE)
            }
            Lender::Heap(_) => true,
        }
    }
}
