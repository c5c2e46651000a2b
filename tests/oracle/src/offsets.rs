//! Offsets known within limits (S19): refusals in their order, then Floyd and Warshall on plain integers.

use crate::Refusal;

/// The second record begins at least `least` and at most `most` rings after the first.
#[derive(Clone, Copy, Debug)]
pub struct Tie {
    pub first: u32,
    pub second: u32,
    pub least: i64,
    pub most: i64,
}

#[derive(Clone, Debug, PartialEq, Eq)]
pub enum Answer {
    /// Two words to a record: least and most, or 1 and 0 for a free one.
    Limits(Vec<i64>),
    CannotHold,
    Refused(Refusal),
}

const FAR: i64 = i64::MAX / 4;
const MOST_TIES: usize = 1024;
const RINGS: i64 = 20_000;

/// S19.4: each number is looked for in the base and all ties before the next one.
fn refused(n: u32, withdrawn: &dyn Fn(u32) -> bool, base: u32, ties: &[Tie], work: usize) -> Option<Refusal> {
    let records = || ties.iter().flat_map(|tie| [tie.first, tie.second]).chain([base]);
    if records().any(|record| record >= n) {
        return Some(Refusal::Record);
    }
    if records().any(withdrawn) {
        return Some(Refusal::Withdrawn);
    }
    let bad = |tie: &Tie| tie.least < -RINGS || tie.most > RINGS || tie.least > tie.most;
    if ties.len() > MOST_TIES || ties.iter().any(bad) {
        return Some(Refusal::Tie);
    }
    (work < 64 * n as usize).then_some(Refusal::Work)
}

/// The distances between all records: how much later one begins than another at most.
fn distances(n: usize, ties: &[Tie]) -> Vec<Vec<i64>> {
    let mut far = vec![vec![FAR; n]; n];
    (0..n).for_each(|record| far[record][record] = 0);
    for tie in ties {
        let (first, second) = (tie.first as usize, tie.second as usize);
        far[first][second] = far[first][second].min(tie.most);
        far[second][first] = far[second][first].min(-tie.least);
    }
    for middle in 0..n {
        let row = far[middle].clone();
        for from in far.iter_mut().filter(|from| from[middle] < FAR) {
            let before = from[middle];
            for (to, &after) in from.iter_mut().zip(&row) {
                if after < FAR {
                    *to = (*to).min(before + after);
                }
            }
        }
        if (0..n).any(|record| far[record][record] < 0) {
            break;
        }
    }
    far
}

pub fn offsets(n: u32, withdrawn: &dyn Fn(u32) -> bool, base: u32, ties: &[Tie], work: usize, room: usize) -> Answer {
    if let Some(cause) = refused(n, withdrawn, base, ties, work) {
        return Answer::Refused(cause);
    }
    let n = n as usize;
    let far = distances(n, ties);
    if (0..n).any(|record| far[record][record] < 0) {
        return Answer::CannotHold;
    }
    if room < 2 * n {
        return Answer::Refused(Refusal::List);
    }
    let base = base as usize;
    let words = |record: usize| if far[base][record] < FAR { [-far[record][base], far[base][record]] } else { [1, 0] };
    Answer::Limits((0..n).flat_map(words).collect())
}

#[cfg(test)]
mod tests {
    use super::*;

    fn tie(first: u32, second: u32, least: i64, most: i64) -> Tie {
        Tie { first, second, least, most }
    }

    #[test]
    fn small_cases() {
        let of = |n, base, ties: &[Tie]| offsets(n, &|_| false, base, ties, 64 * n as usize, 2 * n as usize);
        assert_eq!(of(2, 1, &[tie(0, 1, 31, 38)]), Answer::Limits(vec![-38, -31, 0, 0]));
        let triangle = [tie(0, 1, 10, 20), tie(1, 2, 10, 20), tie(0, 2, 36, 60)];
        assert_eq!(of(4, 0, &triangle), Answer::Limits(vec![0, 0, 16, 20, 36, 40, 1, 0]));
        assert_eq!(of(3, 0, &[tie(1, 2, 1, 5), tie(2, 1, 1, 5)]), Answer::CannotHold);
        assert_eq!(of(2, 0, &[tie(1, 1, -1, 0)]), Answer::Limits(vec![0, 0, 1, 0]));
        assert_eq!(of(2, 0, &[tie(1, 1, 1, 2)]), Answer::CannotHold);
        assert_eq!(of(2, 0, &[tie(1, 0, 5, 4), tie(0, 2, 0, 0)]), Answer::Refused(Refusal::Record));
    }
}
