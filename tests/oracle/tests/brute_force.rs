//! Chains, pairs and trees against plain enumeration on tiny registers.

use oracle::book::{Book, Call, Link};
use oracle::chain::Step;
use oracle::expression::{self, Expression, Letter};
use oracle::random::{self, Random};
use oracle::relation::Relation;
use oracle::{chain, tree};

/// A generator of a fixed seed; and one of SEED, if it is in the environment, for cases that are new.
fn draws(fixed: u64) -> Vec<Random> {
    let drawn = std::env::var("SEED").map(|seed| seed.parse::<u64>().expect("SEED is a number").wrapping_add(fixed));
    [Ok(fixed), drawn].into_iter().flatten().map(Random::new).collect()
}

/// Whether a word is one of the expression's, by the sentences on words (S4.5) and all ways to part the word.
fn spells(expression: &Expression, word: &[Letter]) -> bool {
    match expression {
        Expression::Letter(label) => word == [Letter { label: *label, against: false }],
        Expression::NoneOf(members) => match word {
            [letter] => members.iter().any(|member| member.against == letter.against) && !members.contains(letter),
            _ => false,
        },
        Expression::Inverse(part) => {
            let exchanged = |letter: &Letter| Letter { label: letter.label, against: !letter.against };
            spells(part, &word.iter().rev().map(exchanged).collect::<Vec<_>>())
        }
        Expression::Alternative(left, right) => spells(left, word) || spells(right, word),
        Expression::Sequence(left, right) => {
            (0..=word.len()).any(|at| spells(left, &word[..at]) && spells(right, &word[at..]))
        }
        Expression::Plus(part) => {
            spells(part, word) || (1..word.len()).any(|at| spells(part, &word[..at]) && spells(expression, &word[at..]))
        }
        Expression::Star(part) => word.is_empty() || spells(&Expression::Plus(part.clone()), word),
        Expression::Optional(part) => word.is_empty() || spells(part, word),
    }
}

/// The step words of all steps from a record, ascending.
fn steps(book: &Book, from: u32) -> Vec<u32> {
    let mut words = Vec::new();
    for link in &book.sheet().links {
        for (start, reached, against) in [(link.from, link.to, false), (link.to, link.from, true)] {
            if start == from {
                words.push(Step { letter: Letter { label: link.label, against }, reached }.word());
            }
        }
    }
    words.sort();
    words
}

/// The first chain of exactly this length that goes on from `chain`, in ascending order of step words.
fn first_of_length(
    book: &Book,
    expression: &Expression,
    at: u32,
    to: u32,
    length: usize,
    chain: &mut Vec<u32>,
) -> bool {
    let withdrawn = &book.sheet().withdrawn;
    if withdrawn.contains(&at) || withdrawn.contains(&to) {
        return false;
    }
    if chain.len() == length {
        let letters: Vec<Letter> = chain.iter().map(|&word| Step::of_word(word).letter).collect();
        return at == to && spells(expression, &letters);
    }
    for word in steps(book, at) {
        chain.push(word);
        if first_of_length(book, expression, Step::of_word(word).reached, to, length, chain) {
            return true;
        }
        chain.pop();
    }
    false
}

/// A few random links, or a ring of links `a` and at most one more.
fn tiny_book(random: &mut Random) -> Book {
    let n = random.between(1, 4) as u32;
    let mut book = Book::fresh(n).unwrap();
    let ring = random.chance(40);
    if ring {
        for from in 0..n {
            book.call(Call::Add(Link { from, label: 0, to: (from + 1) % n })).unwrap();
        }
    }
    for _ in 0..random.between(0, if ring { 1 } else { 4 }) {
        let link = Link { from: random.record(n), label: random.below(2) as u32, to: random.record(n) };
        let _present_already = book.call(Call::Add(link));
    }
    withdraw_some(random, &mut book);
    book
}

/// Withdraws some of the records that no link touches.
fn withdraw_some(random: &mut Random, book: &mut Book) {
    for record in 0..book.n() {
        if random.chance(40) {
            let _touched = book.call(Call::Withdraw(record));
        }
    }
}

#[test]
fn first_chains_are_those_found_by_enumeration() {
    for mut random in draws(1) {
        let (mut found, mut longest) = (0, 0);
        for _ in 0..6000 {
            let book = tiny_book(&mut random);
            let letters = random.between(1, 5);
            let mut text = random::in_grammar(&mut random, &[0, 1], letters, 2);
            if random.chance(30) {
                let round: Vec<&str> = (0..3).map(|_| random.pick(&["a", "a", "a", "(a|b)", "^a"])).collect();
                text = format!("({})+", round.join("/")).into();
            }
            let expression = expression::read(&text).unwrap();
            let (x, y) = (random.record(book.n()), random.record(book.n()));
            let first = chain::first(book.n(), book.sheet(), &expression, x, y);
            // Without a chain, all chains of up to six steps are looked at.
            let most = first.as_ref().map_or(6, Vec::len);
            let mut expected = None;
            for length in 0..=most {
                let mut chain = Vec::new();
                if first_of_length(&book, &expression, x, y, length, &mut chain) {
                    expected = Some(chain);
                    break;
                }
            }
            let shown = || format!("{} from {x} to {y} in {:?}", String::from_utf8_lossy(&text), book.sheet().links);
            assert_eq!(first, expected, "{}", shown());
            let meant = Relation::meant(book.n(), book.sheet(), &expression);
            assert_eq!(meant.has(x, y), first.is_some(), "{}", shown());
            found += usize::from(first.is_some());
            longest = longest.max(first.map_or(0, |chain| chain.len()));
        }
        assert!(found > 1000 && longest > 5, "{found} chains were found, the longest of {longest} steps");
    }
}

#[test]
fn pairs_are_those_with_a_chain() {
    for mut random in draws(2) {
        for _ in 0..300 {
            let n = random.between(1, 40) as u32;
            let mut book = Book::fresh(n).unwrap();
            for _ in 0..random.below(3 * n as usize) {
                let link = Link { from: random.record(n), label: random.below(3) as u32, to: random.record(n) };
                let _present_already = book.call(Call::Add(link));
            }
            withdraw_some(&mut random, &mut book);
            let letters = random.between(1, 12);
            let text = random::in_grammar(&mut random, &[0, 1, 2], letters, 3);
            let expression = expression::read(&text).unwrap();
            let meant = Relation::meant(n, book.sheet(), &expression);
            for _ in 0..40 {
                let (x, y) = (random.record(n), random.record(n));
                let first = chain::first(n, book.sheet(), &expression, x, y);
                assert_eq!(meant.has(x, y), first.is_some(), "{}", String::from_utf8_lossy(&text));
            }
        }
    }
}

fn some_set(random: &mut Random, n: u32) -> Relation {
    let count = random.below(3 * n as usize);
    let pairs = (0..count).map(|_| (random.record(n), random.record(n)));
    Relation::of(n, pairs)
}

#[test]
fn relations_are_those_of_their_definitions() {
    for mut random in draws(3) {
        for _ in 0..400 {
            let n = random.pick(&[1, 2, 3, 5, 63, 64, 65, 130]);
            let (left, right) = (some_set(&mut random, n), some_set(&mut random, n));
            let all: Vec<(u32, u32)> = (0..n).flat_map(|x| (0..n).map(move |y| (x, y))).collect();
            let those = |holds: &dyn Fn(u32, u32) -> bool| -> Vec<(u32, u32)> {
                all.iter().copied().filter(|&(x, y)| holds(x, y)).collect()
            };
            let listed = |set: Relation| set.pairs().collect::<Vec<_>>();
            assert_eq!(listed(left.union(&right)), those(&|x, y| left.has(x, y) || right.has(x, y)));
            assert_eq!(listed(left.intersection(&right)), those(&|x, y| left.has(x, y) && right.has(x, y)));
            assert_eq!(listed(left.difference(&right)), those(&|x, y| left.has(x, y) && !right.has(x, y)));
            assert_eq!(listed(left.transpose()), those(&|x, y| left.has(y, x)));
            let middle = |x, y| (0..n).any(|z| left.has(x, z) && right.has(z, y));
            assert_eq!(listed(left.product(&right)), those(&middle));
            // One or more: the union of the powers up to the n-th, until nothing is new.
            let (mut powers, mut power) = (left.clone(), left.clone());
            for _ in 1..n.min(20) {
                power = power.product(&left);
                powers = powers.union(&power);
            }
            let closure = left.closure();
            assert_eq!(closure.union(&powers), closure);
            assert_eq!(closure.product(&left).union(&left), closure);
            assert!(n > 20 || closure == powers);
        }
    }
}

#[test]
fn a_cell_is_found_by_the_places_of_children() {
    for mut random in draws(4) {
        for _ in 0..300 {
            let n = random.between(1, 70) as u32;
            let set = some_set(&mut random, n);
            let bits = tree::bits(&set);
            for x in 0..n {
                for y in 0..n {
                    assert_eq!(cell(&bits, tree::side(n), x, y), set.has(x, y));
                }
            }
            assert_eq!(tree::decode(n, &tree::words(&set)), Some(set));
        }
    }
}

/// The cell of a tree: the children of the 1 at bit p begin at four times the count of ones in bits 0 to p.
fn cell(bits: &[bool], side: u32, x: u32, y: u32) -> bool {
    let (mut children, mut half) = (0, side / 2);
    loop {
        let quarter = (x / half % 2) * 2 + y / half % 2;
        let at = children + quarter as usize;
        if bits.is_empty() || !bits[at] {
            return false;
        }
        if half == 1 {
            return true;
        }
        children = 4 * bits[..=at].iter().filter(|&&bit| bit).count();
        half /= 2;
    }
}

#[test]
fn as_many_words_are_well_formed_as_there_are_sets() {
    // Trees with n up to 4 have at most 20 bits, so each non-empty one is a word below 2^20.
    for (n, sets) in [(1, 2), (2, 1 << 4), (3, 1 << 9), (4, 1 << 16)] {
        let well_formed = (0..1 << 20).filter(|&word| tree::decode(n, &[word]).is_some()).count();
        assert_eq!(well_formed + usize::from(tree::decode(n, &[]).is_some()), sets);
    }
    let word = tree::words(&Relation::of(4, [(0, 1), (1, 2)]))[0];
    assert!(tree::decode(4, &[word, 0]).is_none());
    assert!(tree::decode(4, &[word | 1 << 63]).is_none());
    assert!(tree::decode(4, &[0]).is_none());
}
