//! The baseline against `docs/SCOPE.md`: its cases, and small random registers against the definitions of words and chains.

use bench::expression::{read, Expression};
use bench::made::Random;
use bench::plain::PEER;
use bench::sheet::Link;
use bench::system::{Refusal, System};

fn load(n: u32, links: &[(u32, char, u32)]) -> Box<dyn System> {
    let links: Vec<_> = links.iter().map(|&(from, letter, to)| Link { from, label: letter as u32 - 'a' as u32, to }).collect();
    (PEER.load)(n, &links).unwrap()
}

fn pairs(system: &mut dyn System, expression: &str) -> Vec<(u32, u32)> {
    let mut list = [u32::MAX; 100];
    let count = system.pairs(expression.as_bytes(), &mut list).unwrap();
    assert!(list[..count].is_sorted_by(|one, next| one < next));
    list[..count].iter().map(|word| (word / 1024, word % 1024)).collect()
}

fn chain(system: &mut dyn System, from: u32, to: u32, expression: &str) -> Option<Vec<u32>> {
    let mut list = [u32::MAX; 100];
    let length = system.chain(from, to, expression.as_bytes(), &mut list).unwrap();
    length.map(|length| list[..length].to_vec())
}

/// A chain as the program prints it.
fn written(steps: Option<Vec<u32>>) -> String {
    let step = |word: &u32| {
        let letter = char::from(b'a' + (word >> 11) as u8);
        format!("{letter} {} {}", if word >> 10 & 1 == 0 { '+' } else { '-' }, word & 1023)
    };
    steps.map_or("none".into(), |steps| steps.iter().map(step).collect::<Vec<_>>().join(", "))
}

#[test]
fn the_scopes_cases() {
    let system = &mut *load(4, &[(0, 'a', 1), (1, 'a', 2), (2, 'b', 0)]);
    for (expression, expected) in [
        ("a", &[(0, 1), (1, 2)][..]),
        ("a/b", &[(1, 0)]),
        ("^(a/b)", &[(0, 1)]),
        ("a+", &[(0, 1), (0, 2), (1, 2)]),
        ("b?", &[(0, 0), (1, 1), (2, 0), (2, 2), (3, 3)]),
        ("c", &[]),
        ("(a|b)+", &[(0, 0), (0, 1), (0, 2), (1, 0), (1, 1), (1, 2), (2, 0), (2, 1), (2, 2)]),
        ("^a/^b", &[(1, 2)]),
        ("^b/^a", &[(0, 1)]),
        ("c*", &[(0, 0), (1, 1), (2, 2), (3, 3)]),
        ("!a", &[(2, 0)]),
        ("!(a|^b)", &[(1, 0), (2, 0), (2, 1)]),
        ("^!^a", &[(2, 0)]),
    ] {
        assert_eq!(pairs(system, expression), expected, "{expression}");
    }
    for (from, to, expression, expected) in
        [(2, 2, "(a|b)+", "b + 0, a + 1, a + 2"), (0, 0, "a*", ""), (0, 2, "a/a|^b", "b - 2"), (0, 3, "(a|b|^a|^b)*", "none")]
    {
        assert_eq!(written(chain(system, from, to, expression)), expected, "{expression}");
    }
}

#[test]
fn chains_past_n_steps_and_over_self_links() {
    let ring = &mut *load(3, &[(0, 'a', 1), (1, 'a', 2), (2, 'a', 0)]);
    assert_eq!(written(chain(ring, 0, 1, "a/a/a/a")), "a + 1, a + 2, a + 0, a + 1");
    let own = &mut *load(2, &[(1, 'a', 1), (0, 'b', 1)]);
    assert_eq!(written(chain(own, 1, 1, "^a/a")), "a - 1, a + 1");
    assert_eq!(written(chain(own, 1, 0, "(a*)+/^b")), "b - 0");
}

#[test]
fn questions_are_refused_in_order() {
    let system = &mut *load(2, &[(0, 'a', 1)]);
    let refused = |reply: Result<Option<usize>, Refusal>| reply.unwrap_err();
    let long = [b' '; 257];
    assert_eq!(refused(system.chain(2, 0, &long, &mut [])), 2);
    assert_eq!(refused(system.chain(0, 2, &long, &mut [])), 2);
    assert_eq!(refused(system.chain(0, 1, &long, &mut [])), 10);
    assert_eq!(refused(system.chain(0, 1, b"a**", &mut [])), 9);
    assert_eq!(refused(system.chain(0, 1, b"a", &mut [])), 13);
    assert_eq!(system.chain(1, 0, b"a", &mut []), Ok(None));
    assert_eq!(system.chain(1, 1, b"a?", &mut []), Ok(Some(0)));
    let mut list = [7; 2];
    assert_eq!(system.pairs(b"a?", &mut list), Err(13));
    assert_eq!(list, [7; 2]);
    assert_eq!(system.pairs(b"a", &mut list), Ok(1));
    assert_eq!(list, [1, 7]);
    assert_eq!(system.pairs(b"c", &mut []), Ok(0));
}

/// Whether the steps' letters are a word of the expression, or of its inverse, straight from the definition of words.
fn spells(steps: &[u32], expression: &Expression, inverted: bool) -> bool {
    use Expression::*;
    let split = |one: &dyn Fn(&[u32]) -> bool, other: &dyn Fn(&[u32]) -> bool, least: usize| {
        (least..=steps.len()).any(|at| one(&steps[..at]) && other(&steps[at..]))
    };
    match expression {
        Letter(label) => steps.len() == 1 && steps[0] >> 10 == label * 2 + u32::from(inverted),
        NoneOf(members) => match steps {
            [step] => {
                let (label, against) = (step >> 11, (step >> 10 & 1 == 1) != inverted);
                let named = if against { members.inverted } else { members.plain };
                named != 0 && named >> label & 1 == 0
            }
            _ => false,
        },
        Inverse(inner) => spells(steps, inner, !inverted),
        Alternative(left, right) => spells(steps, left, inverted) || spells(steps, right, inverted),
        Sequence(left, right) => {
            let (one, other) = if inverted { (right, left) } else { (left, right) };
            split(&|steps| spells(steps, one, inverted), &|steps| spells(steps, other, inverted), 0)
        }
        Star(inner) => steps.is_empty() || spells(steps, &Plus(inner.clone()), inverted),
        Plus(inner) => {
            let whole = |steps: &[u32]| spells(steps, inner, inverted);
            whole(steps) || split(&whole, &|rest| !rest.is_empty() && spells(rest, expression, inverted), 1)
        }
        Optional(inner) => steps.is_empty() || spells(steps, inner, inverted),
    }
}

/// The first chain of this many steps among all, tried in the order of step words.
fn first_of_length(
    links: &[Link],
    at: u32,
    to: u32,
    expression: &Expression,
    length: usize,
    steps: &mut Vec<u32>,
) -> Option<Vec<u32>> {
    if steps.len() == length {
        return (at == to && spells(steps, expression, false)).then(|| steps.clone());
    }
    let mut next: Vec<u32> = Vec::new();
    for link in links {
        next.extend((link.from == at).then_some(link.label * 2 * 1024 + link.to));
        next.extend((link.to == at).then_some((link.label * 2 + 1) * 1024 + link.from));
    }
    next.sort();
    next.into_iter().find_map(|step| {
        steps.push(step);
        let found = first_of_length(links, step & 1023, to, expression, length, steps);
        steps.pop();
        found
    })
}

/// A random expression over a and b, and negated sets.
fn expression(random: &mut Random, depth: u32) -> String {
    let part = |random: &mut Random| {
        let inverse = ["", "", "^"][random.below(3) as usize];
        let atom = match random.below(4) {
            0 if depth > 0 => format!("({})", expression(random, depth - 1)),
            1 => "b".into(),
            2 => ["!a", "!^b", "!(a|^b)", "!(c|^c)", "!(^a|a|a)", "!(a|b|^b)"][random.below(6) as usize].into(),
            _ => "a".into(),
        };
        let mark = ["", "", "*", "+", "?"][random.below(5) as usize];
        format!("{inverse}{atom}{mark}")
    };
    let mut text = part(random);
    for _ in 0..random.below(3) {
        text += ["|", "/"][random.below(2) as usize];
        text += &part(random);
    }
    text
}

#[test]
fn random_registers_against_the_definitions() {
    let mut random = Random(1);
    for _ in 0..20_000 {
        let n = 1 + random.below(4);
        let mut links = Vec::new();
        for _ in 0..random.below(6) {
            let link = Link { from: random.below(n), label: random.below(2), to: random.below(n) };
            if !links.contains(&link) {
                links.push(link);
            }
        }
        let system = &mut *(PEER.load)(n, &links).unwrap();
        let text = expression(&mut random, 2);
        let tree = read(text.as_bytes()).unwrap();
        let listed = pairs(system, &text);
        for (from, to) in (0..n).flat_map(|from| (0..n).map(move |to| (from, to))) {
            let found = chain(system, from, to, &text);
            assert_eq!(found.is_some(), listed.contains(&(from, to)), "{from} {to} {text} {links:?}");
            let longest = found.as_ref().map_or(3, |steps| steps.len().min(4));
            let tried = (0..=longest).find_map(|length| first_of_length(&links, from, to, &tree, length, &mut Vec::new()));
            match found {
                Some(steps) if steps.len() > 4 => assert_eq!(tried, None, "{from} {to} {text} {links:?}"),
                found => assert_eq!(tried, found, "{from} {to} {text} {links:?}"),
            }
        }
    }
}
