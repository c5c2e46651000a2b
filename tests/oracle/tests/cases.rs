//! The sample run (S7.8), the cases K1 to K12, and the answers that look right and are wrong (S8).

use oracle::book::{Book, Call, Link};
use oracle::chain::Step;
use oracle::expression::{self, Expression, Letter};
use oracle::frame::{frame, Request};
use oracle::relation::Relation;
use oracle::tree::{self, Binary, Unary};
use oracle::{lines, program, question, random, Listed, Refusal, Space};
use std::collections::BTreeSet;

/// What the program prints for these bytes.
fn printed(input: &[u8]) -> String {
    let mut output = Vec::new();
    program::run(input, &mut output).expect("a run in memory");
    String::from_utf8(output).expect("lines of text")
}

/// What the program prints for typed lines, its lines joined by a comma.
fn answers(typed: &str) -> String {
    let frames: Vec<u8> = typed.lines().flat_map(|line| lines::bytes(line).expect("a request")).collect();
    printed(&frames).lines().collect::<Vec<_>>().join(", ")
}

const SAMPLE: &str = "open 4\nadd 0 a 1\nadd 2 a 1\nlock 1\nadd 1 b 3\npairs a/^a\nundo\nadd 1 b 3\nchain 0 3 a/b";

#[test]
fn sample_run() {
    let expected = "ok\nok\nok\nok\nrefused 4\npairs 4\n0 0\n0 2\n2 0\n2 2\nok\nok\nchain 2\na + 1\nb + 3\n";
    let frames: Vec<u8> = SAMPLE.lines().flat_map(|line| lines::bytes(line).unwrap()).collect();
    assert_eq!(printed(&frames), expected);
    // The first frames and the last, byte by byte.
    assert!(
        frames.starts_with(&[4, 0, 1, 0, 4, 0, 7, 0, 2, 0, 0, 0, 0, 1, 0, 7, 0, 2, 0, 2, 0, 0, 1, 0, 4, 0, 4, 0, 1, 0])
    );
    assert!(frames.ends_with(&[9, 0, 8, 0, 0, 0, 3, 0, b'a', b'/', b'b']));
}

/// The links 0 a 1, 1 a 2, 2 b 0 with n = 4.
fn cases_book() -> Book {
    book(4, &[(0, 0, 1), (1, 0, 2), (2, 1, 0)])
}

fn book(n: u32, links: &[(u32, u32, u32)]) -> Book {
    let mut book = Book::fresh(n).unwrap();
    for &(from, label, to) in links {
        assert_eq!(book.call(Call::Add(Link { from, label, to })), Ok(()));
    }
    book
}

fn pairs(book: &Book, text: &str) -> Vec<(u32, u32)> {
    let listed = question::pairs(book, text.as_bytes(), Space::AMPLE).unwrap();
    listed.words.iter().map(|word| (word / 1024, word % 1024)).collect()
}

/// The chain as the program writes it, its steps joined by a comma.
fn chain(book: &Book, from: u32, to: u32, text: &str) -> Option<String> {
    let words = question::chain(book, from, to, text.as_bytes(), Space::AMPLE).unwrap()?;
    let line = |word: &u32| {
        let Step { letter, reached } = Step::of_word(*word);
        assert_eq!(Step { letter, reached }.word(), *word);
        format!("{} {} {reached}", (b'a' + letter.label as u8) as char, if letter.against { '-' } else { '+' })
    };
    Some(words.iter().map(line).collect::<Vec<_>>().join(", "))
}

#[test]
fn k1_to_k7_pairs() {
    let book = cases_book();
    assert_eq!(pairs(&book, "a"), [(0, 1), (1, 2)]);
    assert_eq!(pairs(&book, "a/b"), [(1, 0)]);
    assert_eq!(pairs(&book, "^(a/b)"), [(0, 1)]);
    assert_eq!(pairs(&book, "a+"), [(0, 1), (0, 2), (1, 2)]);
    assert_eq!(pairs(&book, "b?"), [(0, 0), (1, 1), (2, 0), (2, 2), (3, 3)]);
    assert_eq!(pairs(&book, "c"), []);
    let nine: Vec<_> = (0..3).flat_map(|x| (0..3).map(move |y| (x, y))).collect();
    assert_eq!(pairs(&book, "(a|b)+"), nine);
}

#[test]
fn k8_to_k11_chains() {
    let book = cases_book();
    assert_eq!(chain(&book, 2, 2, "(a|b)+").unwrap(), "b + 0, a + 1, a + 2");
    assert_eq!(chain(&book, 0, 0, "a*").unwrap(), "");
    assert_eq!(chain(&book, 0, 2, "a/a|^b").unwrap(), "b - 2");
    assert_eq!(chain(&book, 0, 3, "(a|b|^a|^b)*"), None);
}

#[test]
fn k12_tree() {
    let bits = tree::bits(&Relation::of(4, [(0, 1), (1, 2)]));
    let text: String = bits.iter().map(|&bit| if bit { '1' } else { '0' }).collect();
    assert_eq!(text, "110001000010");
    assert_eq!(tree::words(&Relation::of(4, [(0, 1), (1, 2)])), [0b0100_0010_0011]);
    assert_eq!((tree::most_words(1024), tree::most_words(64), tree::side(1), tree::side(33)), (21846, 86, 2, 64));
}

#[test]
fn inverse_of_a_sequence_turns_its_order() {
    let book = cases_book();
    assert_ne!(pairs(&book, "^(a/b)"), pairs(&book, "^a/^b"));
    assert_eq!(pairs(&book, "^(a/b)"), pairs(&book, "^b/^a"));
    assert_eq!(chain(&book, 0, 1, "^(a/b)").unwrap(), "b - 2, a - 1");
    assert_eq!(chain(&book, 0, 1, "^a/^b"), None);
}

#[test]
fn transposing_swaps_at_every_level() {
    let transposed = |pairs: &[u32]| {
        let made = tree::make(4, pairs, Space::AMPLE).unwrap();
        let turned = tree::unary(Unary::Transpose, 4, &made, Space::AMPLE).unwrap();
        tree::list(4, &turned, Space::AMPLE).unwrap().words
    };
    assert_eq!(transposed(&[1]), [1024]);
    assert_eq!(transposed(&[3, 1026]), [2 * 1024 + 1, 3 * 1024]);
}

#[test]
fn zero_steps_join_unlinked_records_too() {
    let book = cases_book();
    assert_eq!(pairs(&book, "c*"), [(0, 0), (1, 1), (2, 2), (3, 3)]);
    assert_eq!(chain(&book, 3, 3, "a?").unwrap(), "");
    assert_eq!(chain(&book, 3, 3, "a+"), None);
}

#[test]
fn a_withdrawn_record_supports_not_even_itself() {
    let mut book = cases_book();
    book.call(Call::Withdraw(3)).unwrap();
    assert_eq!(pairs(&book, "b?"), [(0, 0), (1, 1), (2, 0), (2, 2)]);
    assert_eq!(pairs(&book, "b?/c*"), [(0, 0), (1, 1), (2, 0), (2, 2)]);
    assert_eq!(pairs(&book, "(c*)?"), [(0, 0), (1, 1), (2, 2)]);
    for text in ["a*", "a?", "(a|b|^a|^b)*"] {
        for (x, y) in [(3, 3), (3, 0), (0, 3)] {
            assert_eq!(chain(&book, x, y, text), None);
        }
    }
    book.call(Call::Reinstate(3)).unwrap();
    assert_eq!(pairs(&book, "b?"), [(0, 0), (1, 1), (2, 0), (2, 2), (3, 3)]);
    assert_eq!(chain(&book, 3, 3, "a*").unwrap(), "");
    assert_eq!((book.call(Call::Undo), chain(&book, 3, 3, "a*")), (Ok(()), None));
    assert_eq!((book.call(Call::Undo), chain(&book, 3, 3, "a*").unwrap()), (Ok(()), String::new()));
    // none comes after 2, the expression's numbers and 12
    book.call(Call::Withdraw(3)).unwrap();
    let asked = |to, text: &str, work| {
        question::chain(&book, 3, to, text.as_bytes(), Space { work, list: 0 }).map_err(Refusal::number)
    };
    assert_eq!((asked(4, "a*", 256), asked(3, "a**", 0), asked(3, "a*", 255)), (Err(2), Err(9), Err(12)));
    assert_eq!(asked(3, "a*", 256), Ok(None));
}

#[test]
fn a_chain_may_have_more_than_n_steps() {
    let ring = book(3, &[(0, 0, 1), (1, 0, 2), (2, 0, 0)]);
    assert_eq!(chain(&ring, 0, 1, "a/a/a/a").unwrap(), "a + 1, a + 2, a + 0, a + 1");
    // 63 × n steps: on a ring of 64 records, 63 steps at a time reach the record before last after 64 × 63.
    let links: Vec<_> = (0..64).map(|from| (from, 0, (from + 1) % 64)).collect();
    let round = ["a"; 63].join("/");
    let words = question::chain(&book(64, &links), 5, 5, format!("({round})+").as_bytes(), Space::AMPLE);
    assert_eq!(words.unwrap().unwrap().len(), 63 * 64);
}

#[test]
fn a_refused_edit_is_not_held() {
    assert_eq!(
        answers("open 2\nadd 0 a 1\nlock 0\nadd 0 b 1\nundo\nadd 0 b 1\nundo\nundo\nundo"),
        "ok, ok, ok, refused 4, ok, ok, ok, ok, refused 8"
    );
}

/// The number for which a text is refused.
fn verdict(text: &str) -> Option<u8> {
    expression::read(text.as_bytes()).err().map(Refusal::number)
}

#[test]
fn letters_depth_and_bytes_at_their_limits() {
    let letters = |count: usize| vec!["a"; count].join("/");
    assert_eq!((verdict(&letters(63)), verdict(&letters(64))), (None, Some(10)));
    let deep = |depth: usize| format!("{}a{}", "(".repeat(depth), ")".repeat(depth));
    assert_eq!((verdict(&deep(8)), verdict(&deep(9))), (None, Some(10)));
    // 63 letters in 256 bytes, and in 257.
    let long = format!("{}/^(a)+/^(a)+/^(a)+/a*", ["^a*"; 59].join("/"));
    let longer = long.replacen("^a*", "^(a)", 1);
    assert_eq!((long.len(), verdict(&long)), (256, None));
    assert_eq!((longer.len(), verdict(&longer)), (257, Some(10)));
}

#[test]
fn the_order_of_refusals_of_questions() {
    // 10 for bytes before 9.
    assert_eq!(verdict(&"*".repeat(257)), Some(10));
    assert_eq!(verdict(&"*".repeat(256)), Some(9));
    // 9 before 10 for letters and depth.
    assert_eq!(verdict(&(vec!["a"; 64].join("/") + "/")), Some(9));
    assert_eq!(verdict(&format!("{}a{}", "(".repeat(9), ")".repeat(8))), Some(9));
    // 2 before both, and 12 and 13 after.
    let book = cases_book();
    let asked = |from, text: &str, work, list| {
        question::chain(&book, from, 2, text.as_bytes(), Space { work, list }).map_err(Refusal::number)
    };
    assert_eq!(asked(4, &"*".repeat(257), 0, 0), Err(2));
    assert_eq!(asked(0, "a/", 0, 0), Err(9));
    assert_eq!(asked(0, "a/a", 255, 0), Err(12));
    assert_eq!(asked(0, "a/a", 256, 1), Err(13));
    assert_eq!(asked(0, "a/a", 256, 2).unwrap().unwrap().len(), 2);
    assert_eq!(asked(0, "b", 255, 0), Err(12));
    assert_eq!(asked(0, "b", 256, 0), Ok(None));
    let asked = |work, list| question::pairs(&book, b"a", Space { work, list }).map_err(Refusal::number);
    assert_eq!(tree::work(4), 32);
    assert_eq!(asked(31, 0), Err(12));
    let first = |words: &[u32]| Ok(Listed { total: 2, words: words.to_vec() });
    assert_eq!([0, 1, 2, 3].map(|list| asked(32, list)), [first(&[]), first(&[1]), first(&[1, 1026]), first(&[1, 1026])]);
}

#[test]
fn texts_in_and_outside_the_grammar() {
    let read = |text: &str| expression::read(text.as_bytes());
    let a = || Box::new(Expression::Letter(0));
    let b = || Box::new(Expression::Letter(1));
    let c = || Box::new(Expression::Letter(2));
    assert_eq!(read("^a*"), Ok(Expression::Inverse(Box::new(Expression::Star(a())))));
    assert_eq!(read("(^a)*"), Ok(Expression::Star(Box::new(Expression::Inverse(a())))));
    assert_eq!(read("a|b/c"), Ok(Expression::Alternative(a(), Box::new(Expression::Sequence(b(), c())))));
    assert_eq!(read("(a|b)/c"), Ok(Expression::Sequence(Box::new(Expression::Alternative(a(), b())), c())));
    for fault in ["", "()", "a**", "^^a", "a ", "A", "a|", "/a", "(a", "a)", "ab", "a^", "a?+", "^", "*", "a\u{e9}"] {
        assert_eq!(read(fault), Err(Refusal::Grammar), "{fault}");
    }
}

#[test]
fn texts_of_negated_sets() {
    let read = |text: &str| expression::read(text.as_bytes());
    let (plain, inverted) = (|label| Letter { label, against: false }, |label| Letter { label, against: true });
    let set = |members: &[Letter]| Box::new(Expression::NoneOf(members.to_vec()));
    assert_eq!(read("!(a|^b|c)"), Ok(*set(&[plain(0), inverted(1), plain(2)])));
    assert_eq!(read("^!^a*"), Ok(Expression::Inverse(Box::new(Expression::Star(set(&[inverted(0)]))))));
    assert_eq!(read("!a|b"), Ok(Expression::Alternative(set(&[plain(0)]), Box::new(Expression::Letter(1)))));
    let nested = |depth: usize| "(".repeat(depth) + "!(a|b)" + &")".repeat(depth);
    assert!(read(&nested(8)).is_ok());
    assert_eq!(read(&nested(9)), Err(Refusal::TooLong));
    assert!(read(&vec!["!a"; 63].join("/")).is_ok());
    assert_eq!(read(&vec!["!a"; 64].join("/")), Err(Refusal::TooLong));
    assert!(read(&vec!["!(a|b)"; 36].join("/")).is_ok());
    for fault in
        ["!", "!()", "!(a", "!(a|)", "!(|a)", "!((a))", "!(a*)", "!(a/b)", "!!a", "!^^a", "^^!a", "!(!a)", "a!"]
    {
        assert_eq!(read(fault), Err(Refusal::Grammar), "{fault}");
    }
}

/// All 26 plain members.
const EVERY: &str = "!(a|b|c|d|e|f|g|h|i|j|k|l|m|n|o|p|q|r|s|t|u|v|w|x|y|z)";

#[test]
fn negated_sets() {
    let sheet = cases_book();
    assert_eq!(pairs(&sheet, "!a"), [(2, 0)]);
    assert_eq!(pairs(&sheet, "!^a"), [(0, 2)]);
    assert_eq!(pairs(&sheet, "!(a|^b)"), [(1, 0), (2, 0), (2, 1)]);
    assert_eq!(pairs(&sheet, "^!^a"), [(2, 0)]);
    assert_eq!(pairs(&sheet, "!a*"), [(0, 0), (1, 1), (2, 0), (2, 2), (3, 3)]);
    assert_eq!(pairs(&sheet, EVERY), []);
    assert_eq!(pairs(&sheet, &format!("({EVERY})*")), [(0, 0), (1, 1), (2, 2), (3, 3)]);
    assert_eq!(chain(&sheet, 0, 0, "!c+").unwrap(), "a + 1, a + 2, b + 0");
    assert_eq!(chain(&sheet, 0, 2, "!(c|^c)").unwrap(), "b - 2");
    assert_eq!(chain(&sheet, 2, 1, "^!b").unwrap(), "a - 1");
    assert_eq!(chain(&sheet, 0, 3, "(!(c|^c))*"), None);
    let links = [(0, 0, 2), (0, 1, 1), (1, 0, 0), (1, 0, 3), (2, 0, 3), (0, 2, 1), (0, 2, 2), (3, 3, 0)];
    let ties = book(4, &links);
    assert_eq!(chain(&ties, 0, 3, "!d/a").unwrap(), "a + 2, a + 3");
    assert_eq!(chain(&ties, 0, 3, "!(a|^b)/a").unwrap(), "a - 1, a + 3");
    assert_eq!(chain(&ties, 0, 3, "!(a|^a)/a").unwrap(), "b + 1, a + 3");
    assert_eq!(chain(&ties, 0, 3, "!(a|b)/a").unwrap(), "c + 1, a + 3");
    assert_eq!(chain(&ties, 1, 0, "!(z|^z)").unwrap(), "a + 0");
    assert_eq!(chain(&ties, 1, 0, "!(a|^z)").unwrap(), "b - 0");
}

#[test]
fn at_most_256_edits_are_held() {
    let mut book = Book::fresh(300).unwrap();
    for record in 0..257 {
        assert_eq!(book.call(Call::Lock(record)), Ok(()));
    }
    for left in (0..256).rev() {
        assert_eq!(book.call(Call::Undo), Ok(()));
        assert_eq!(book.held(), left);
    }
    assert_eq!(book.call(Call::Undo), Err(Refusal::NoneHeld));
    assert_eq!(book.sheet().locked, BTreeSet::from([0]));
}

#[test]
fn a_full_register_refuses_only_new_links() {
    let mut book = Book::fresh(64).unwrap();
    for at in 0..4096 {
        assert_eq!(book.call(Call::Add(Link { from: at / 64, label: 0, to: at % 64 })), Ok(()));
    }
    let present = Link { from: 0, label: 0, to: 0 };
    let absent = Link { from: 0, label: 1, to: 0 };
    assert_eq!(book.call(Call::Add(absent)), Err(Refusal::Full));
    assert_eq!(book.call(Call::Add(present)), Err(Refusal::Already));
    assert_eq!(book.call(Call::Remove(present)), Ok(()));
    assert_eq!(book.call(Call::Add(absent)), Ok(()));
    assert_eq!(book.call(Call::Add(present)), Err(Refusal::Full));
}

#[test]
fn the_order_of_refusals_of_edits() {
    let open = "open 3\nadd 0 a 0\nlock 1\nwithdraw 2\n";
    let last = |typed: &str| answers(&format!("{open}{typed}")).rsplit(", ").next().unwrap().to_string();
    for (typed, number) in [
        ("add 3 26 1", 2),
        ("add 2 26 3", 2),
        ("remove 1 255 65535", 2),
        ("lock 3", 2),
        ("withdraw 3", 2),
        ("reinstate 65535", 2),
        ("add 2 26 0", 18),
        ("remove 0 26 2", 18),
        ("add 2 a 1", 18),
        ("remove 1 a 2", 18),
        ("remove 2 a 2", 18),
        ("lock 2", 18),
        ("unlock 2", 18),
        ("withdraw 1", 4),
        ("lock 0\nwithdraw 0", 4),
        ("withdraw 2", 5),
        ("withdraw 0", 17),
        ("reinstate 0", 6),
        ("reinstate 1", 6),
        ("unlock 256", 2),
        ("add 1 26 1", 3),
        ("remove 0 26 1", 3),
        ("add 0 a 1", 4),
        ("remove 1 a 0", 4),
        ("add 0 a 0", 5),
        ("lock 1", 5),
        ("remove 0 b 0", 6),
        ("unlock 0", 6),
        ("chain 0 3 ", 2),
        ("chain 0 1", 9),
        ("pairs", 9),
        ("pairs a b", 9),
    ] {
        assert_eq!(last(typed), format!("refused {number}"), "{typed}");
    }
}

/// After each edit, refusal and undo a total is the number of links with the label; a label above 25 has none.
#[test]
fn totals() {
    assert_eq!(answers("total 200\nopen 3\ntotal a\nadd 0 a 1\nadd 1 a 1\nadd 0 b 1\nadd 0 a 1\ntotal a\ntotal b"), {
        "refused 16, ok, total 0, ok, ok, ok, refused 5, total 2, total 1"
    });
    assert_eq!(answers("open 3\nadd 0 a 1\nadd 1 a 1\nremove 0 a 1\ntotal a\nundo\ntotal a\nundo\nundo\ntotal a\ntotal 26\nopen 2\ntotal 25"), {
        "ok, ok, ok, ok, total 1, ok, total 2, ok, ok, total 0, refused 3, ok, total 0"
    });
}

#[test]
fn the_order_of_refusals_of_frames() {
    // Before any open: 15, then 14 for a wrong size, then 16; a refused open opens nothing.
    assert_eq!(
        printed(&[frame(12, &[]), frame(1, &[4]), frame(8, &[0; 3])].concat()),
        "refused 15\nrefused 14\nrefused 14\n"
    );
    assert_eq!(answers("undo\npairs\nchain 9 9\nadd 70 a 0\nopen 0\nopen 65\nlock 0"), {
        "refused 16, refused 16, refused 16, refused 16, refused 1, refused 1, refused 16"
    });
    // A refused open keeps the register and its held edits.
    assert_eq!(answers("open 64\nadd 63 z 63\nopen 65\npairs z\nundo\nundo"), {
        "ok, ok, refused 1, pairs 1, 63 63, ok, refused 8"
    });
    // Every kind at each size.
    for kind in 0..=12 {
        for size in [0, 1, 2, 3, 4, 5, 6, 1022] {
            let right = match kind {
                1 | 4 | 5 | 10 | 11 => size == 2,
                2 | 3 => size == 5,
                6 => size == 0,
                7 => true,
                8 => size >= 4,
                9 => size == 1,
                _ => false,
            };
            let number = match (kind, right) {
                (0 | 12, _) => 15,
                (_, false) => 14,
                (1, true) => 1,
                _ => 16,
            };
            assert_eq!(
                printed(&frame(kind, &vec![0; size])),
                format!("refused {number}\n"),
                "kind {kind}, size {size}"
            );
        }
    }
}

#[test]
fn what_ends_a_run() {
    let open = Request::Open(1).frame();
    let after = |end: &[u8]| printed(&[&open[..], end].concat());
    assert_eq!(after(&[]), "ok\n");
    for end in [&[0, 0, 6, 0][..], &[1, 0, 6], &[1, 4], &[255, 255, 6, 0], &[2], &[2, 0], &[2, 0, 6], &[4, 0, 6, 0, 1]]
    {
        assert_eq!(after(end), "ok\nrefused 14\n", "{end:?}");
    }
    // 1,024 is a length, and 1,025 ends the run though all its bytes are there.
    assert_eq!(after(&[frame(7, &[b'a'; 1022]), frame(6, &[])].concat()), "ok\nrefused 10\nrefused 8\n");
    assert_eq!(after(&[&[1, 4][..], &[0; 1025], &open].concat()), "ok\nrefused 14\n");
}

#[test]
fn tree_operations_and_their_refusals() {
    let n = 5;
    let made = |pairs: &[u32]| tree::make(n, pairs, Space::AMPLE).unwrap();
    let listed = |tree: Result<Vec<u64>, Refusal>| tree::list(n, &tree.unwrap(), Space::AMPLE).unwrap().words;
    let (left, right) = (made(&[1025, 1, 1025]), made(&[1, 2052]));
    assert_eq!(listed(tree::binary(Binary::Union, n, &left, &right, Space::AMPLE)), [1, 1025, 2052]);
    assert_eq!(listed(tree::binary(Binary::Intersection, n, &left, &right, Space::AMPLE)), [1]);
    assert_eq!(listed(tree::binary(Binary::Difference, n, &left, &right, Space::AMPLE)), [1025]);
    let product = |left, right| Binary::Product { left, right };
    assert_eq!(listed(tree::binary(product(0, 0), n, &right, &left, Space::AMPLE)), [1]);
    assert_eq!(listed(tree::binary(product(0, 1), n, &right, &left, Space::AMPLE)), [0, 1]);
    assert_eq!(listed(tree::binary(product(255, 0), n, &right, &left, Space::AMPLE)), [1025]);
    assert_eq!(listed(tree::binary(product(1, 2), n, &left, &right, Space::AMPLE)), [1024]);
    assert_eq!(listed(tree::unary(Unary::Closure, n, &made(&[1, 1026, 2048]), Space::AMPLE)).len(), 9);
    assert_eq!(made(&[]), []);

    let number = |answer: Result<Vec<u64>, Refusal>| answer.map_err(Refusal::number);
    let small = Space { work: tree::work(n) - 1, list: 0 };
    assert_eq!(number(tree::make(0, &[9999], small)), Err(1));
    assert_eq!(number(tree::make(1025, &[], small)), Err(1));
    for outside in [5, 5 * 1024, 1024 * 1024, u32::MAX] {
        assert_eq!(number(tree::make(n, &[0, outside], small)), Err(2));
    }
    assert_eq!(number(tree::make(n, &[0], small)), Err(12));
    assert_eq!(number(tree::make(n, &[0], Space { work: tree::work(n), list: 0 })), Err(13));
    assert_eq!(number(tree::binary(Binary::Union, n, &left, &[0], small)), Err(11));
    assert_eq!(number(tree::binary(Binary::Union, n, &left, &right, small)), Err(12));
}

#[test]
fn sessions_meet_every_number_of_the_program() {
    let mut met = BTreeSet::new();
    for (seed, count) in [(1, random::FILLING_SESSION), (2, 2000), (3, 2000), (4, 2000)] {
        let session = random::session(seed, count);
        assert_eq!(session, random::session(seed, count));
        met.extend(printed(&session).lines().filter_map(|line| line.strip_prefix("refused ")?.parse::<u32>().ok()));
    }
    assert_eq!(met, (1..=10).chain(14..=18).collect());
}
