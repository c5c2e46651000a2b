//! How much space calls need. Each is for n from 1 to 1,024, and 0 for any other n, which the engine refuses.

/// D, the words of the longest tree: 4 × (s² − 1) / 3 bits, where s is the smallest power of two that is at least n, and at least 2.
///
/// ```
/// assert_eq!((dating::tree_words(1), dating::tree_words(64), dating::tree_words(1024)), (1, 86, 21_846));
/// ```
#[must_use]
pub fn tree_words(n: u16) -> usize {
    let side = in_range(n).next_power_of_two().max(2);
    if in_range(n) == 0 {
        return 0;
    }
    (4 * (side * side - 1) / 3).div_ceil(64)
}

/// The words of work for a tree operation or a pair question.
///
/// ```
/// assert_eq!(dating::tree_work(64), 32 * dating::tree_words(64));
/// ```
#[must_use]
pub fn tree_work(n: u16) -> usize {
    32 * tree_words(n)
}

/// The words of work for a pair question by rows of bits: 32 relations of n rows, 64 columns to a word.
///
/// ```
/// assert_eq!(dating::rows_work(65), 32 * 65 * 2);
/// ```
#[must_use]
pub fn rows_work(n: u16) -> usize {
    32 * in_range(n) * in_range(n).div_ceil(64)
}

/// The words of work for a chain question.
///
/// ```
/// assert_eq!(dating::chain_work(1024), 65_536);
/// ```
#[must_use]
pub fn chain_work(n: u16) -> usize {
    64 * in_range(n)
}

/// The words of work for sole support.
///
/// ```
/// assert_eq!(dating::support_work(64), dating::tree_work(64) + dating::chain_work(64));
/// ```
#[must_use]
pub fn support_work(n: u16) -> usize {
    tree_work(n) + chain_work(n)
}

/// The words of work for offsets.
///
/// ```
/// assert_eq!((dating::offsets_work(1024), dating::offsets_work(1025)), (65_536, 0));
/// ```
#[must_use]
pub fn offsets_work(n: u16) -> usize {
    64 * in_range(n)
}

/// The length of a list that has room for every answer to a pair question.
///
/// ```
/// assert_eq!(dating::most_pairs(1024), 1_048_576);
/// ```
#[must_use]
pub fn most_pairs(n: u16) -> usize {
    in_range(n) * in_range(n)
}

/// The length of a list that has room for every chain.
///
/// ```
/// assert_eq!(dating::longest_chain(1024), 64_512);
/// ```
#[must_use]
pub fn longest_chain(n: u16) -> usize {
    63 * in_range(n)
}

fn in_range(n: u16) -> usize {
    if n <= 1024 { n.into() } else { 0 }
}

#[cfg(test)]
mod tests {
    use super::*;

    #[test]
    fn sizes_of_the_scope() {
        assert_eq!((tree_words(1024), tree_words(64), tree_words(1)), (21_846, 86, 1));
        assert_eq!((tree_work(0), tree_work(1025), chain_work(1024)), (0, 0, 65_536));
        assert_eq!((rows_work(0), rows_work(1), rows_work(65), rows_work(1024), rows_work(1025)), (0, 32, 4160, 524_288, 0));
    }
}
