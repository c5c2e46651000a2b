//! Checksums, result lines, and how an answer is timed.

use crate::clock::now;
use crate::sheet::Question;
use crate::system::{ask, Reply, System};
use std::env;
use std::time::{Duration, Instant};

/// The sum of the mixed pair words; it does not depend on their order.
pub fn pairs_checksum(pairs: &[u32]) -> u32 {
    pairs.iter().fold(0, |sum: u32, &word| sum.wrapping_add(mix(word)))
}

fn mix(word: u32) -> u32 {
    let w = word.wrapping_mul(0x9E37_79B1);
    let w = (w ^ (w >> 15)).wrapping_mul(0x85EB_CA77);
    w ^ (w >> 13)
}

pub fn chain_checksum(steps: &[u32]) -> u32 {
    steps.iter().fold(0, |h: u32, &word| h.wrapping_mul(31).wrapping_add(word).wrapping_add(1))
}

/// A result line without its time; `reply` is what `ask` gave, `list` has its words.
pub fn line(index: usize, question: &Question, reply: Reply, list: &[u32]) -> String {
    let kind = question.kind();
    match (question, reply) {
        (_, Err(number)) => format!("{kind} {index} refused {number}"),
        (Question::Edit(_), _) => format!("{kind} {index}"),
        (_, Ok(None)) => format!("{kind} {index} none -"),
        (Question::Pairs { .. }, Ok(Some(count))) => {
            format!("{kind} {index} {count} {:08x}", pairs_checksum(&list[..count]))
        }
        (Question::Chain { .. }, Ok(Some(length))) => {
            format!("{kind} {index} {length} {:08x}", chain_checksum(&list[..length]))
        }
    }
}

/// Whether each question is asked only once.
pub fn once() -> bool {
    env::var_os("ONCE").is_some()
}

/// What every word of a list is before a question; no pair and no step is written so.
pub const CLEAR: u32 = u32::MAX;

/// Clears the list, then asks the question, timed.
pub fn timed_ask(once: bool, system: &mut dyn System, question: &Question, list: &mut [u32]) -> (Reply, Duration) {
    list.fill(CLEAR);
    timed(once, || ask(system, question, list))
}

/// One run warms up; then the median of 3 to 25 repeats, about a quarter of a second in all. A first run over half a second, and any
/// with `once`, stands for itself.
pub fn timed<T>(once: bool, mut run: impl FnMut() -> T) -> (T, Duration) {
    let mut run = || {
        let start = now();
        let result = run();
        (result, now() - start)
    };
    let (result, first) = run();
    if once || first > Duration::from_millis(500) {
        return (result, first);
    }
    let mut times = [Duration::ZERO; 25];
    let mut count = 0;
    let start = Instant::now();
    while count < 3 || count < times.len() && start.elapsed() < Duration::from_millis(250) {
        times[count] = run().1;
        count += 1;
    }
    times[..count].sort();
    (result, times[count / 2])
}

pub fn microseconds(time: Duration) -> f64 {
    time.as_secs_f64() * 1e6
}

#[cfg(test)]
mod tests {
    use super::*;

    #[test]
    fn checksums_are_those_of_the_stored_answers() {
        // ring.answers 8 and 16
        let ring: Vec<u32> = (0..1024).map(|x| x * 1024 + (x + 1) % 1024).collect();
        assert_eq!(pairs_checksum(&ring), 0x226a987d);
        assert_eq!(chain_checksum(&[1, 2, 3]), 0x7e3);
    }

    #[test]
    fn lines_follow_the_format() {
        let pairs = Question::Pairs { class: "c".into(), expression: "a".into() };
        let chain = Question::Chain { class: "c".into(), from: 0, to: 3, expression: "a/a/a".into() };
        assert_eq!(line(17, &pairs, Ok(Some(0)), &[]), "pairs 17 0 00000000");
        assert_eq!(line(16, &chain, Ok(Some(3)), &[1, 2, 3, 9]), "chain 16 3 000007e3");
        assert_eq!(line(17, &chain, Ok(None), &[]), "chain 17 none -");
        assert_eq!(line(8, &pairs, Err(13), &[]), "pairs 8 refused 13");
    }

    #[test]
    fn runs_are_counted() {
        let count = |once| {
            let mut runs = 0;
            timed(once, || runs += 1);
            runs
        };
        assert_eq!((count(true), count(false)), (1, 26));
    }
}
