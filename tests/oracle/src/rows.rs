//! Pair questions by rows of bits: what they are lent.

/// The words of work: 32 relations of n rows, 64 columns to a word.
pub fn work(n: u32) -> usize {
    32 * n as usize * (n as usize).div_ceil(64)
}
