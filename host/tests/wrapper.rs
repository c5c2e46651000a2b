//! The wrapper over the engine: the cases of S8.1 through ordinary types, and what is refused.

use dating::{Edit, Link, Refusal, Register, Sense, Tree, Trees};
use std::error::Error;

/// The links of the cases of S8.1.
fn cases() -> Result<Register, Refusal> {
    let mut register = Register::fresh(4)?;
    for (from, letter, to) in [(0, 'a', 1), (1, 'a', 2), (2, 'b', 0)] {
        register.add(from, letter, to)?;
    }
    Ok(register)
}

fn pairs(register: &Register, expression: &str) -> Vec<(u16, u16)> {
    register.pairs(expression).unwrap().collect()
}

#[test]
fn pairs_of_the_scope() {
    let register = &cases().unwrap();
    assert_eq!(pairs(register, "a"), [(0, 1), (1, 2)]);
    assert_eq!(pairs(register, "a/b"), [(1, 0)]);
    assert_eq!(pairs(register, "^(a/b)"), [(0, 1)]);
    assert_eq!(pairs(register, "a+"), [(0, 1), (0, 2), (1, 2)]);
    assert_eq!(pairs(register, "b?"), [(0, 0), (1, 1), (2, 0), (2, 2), (3, 3)]);
    assert_eq!(pairs(register, "c"), []);
    assert_eq!(register.pairs("(a|b)+").unwrap().len(), 9);
}

#[test]
fn chains_of_the_scope() {
    let register = &cases().unwrap();
    let chain = |from, to, expression| {
        let steps = register.chain(from, to, expression).unwrap();
        steps.map(|steps| steps.map(|step| step.to_string()).collect::<Vec<_>>().join(", "))
    };
    assert_eq!(chain(2, 2, "(a|b)+").as_deref(), Some("b + 0, a + 1, a + 2"));
    assert_eq!(chain(0, 0, "a*").as_deref(), Some(""));
    assert_eq!(chain(0, 2, "a/a|^b").as_deref(), Some("b - 2"));
    assert_eq!(chain(0, 3, "(a|b|^a|^b)*"), None);
}

#[test]
fn edits_locks_and_undo() {
    let register = &mut cases().unwrap();
    assert_eq!(register.size(), 4);
    let links = [(0, 'a', 1), (1, 'a', 2), (2, 'b', 0)].map(|(from, letter, to)| Link { from, letter, to });
    assert_eq!(register.links().unwrap().collect::<Vec<_>>(), links);
    register.lock(1).unwrap();
    assert!(register.is_locked(1) && !register.is_locked(0) && !register.is_locked(4));
    assert_eq!(register.add(1, 'z', 3), Err(Refusal::Locked));
    let before = register.clone();
    assert_eq!(register.add(0, '{', 3), Err(Refusal::Label));
    assert_eq!(register.add(0, 'ß', 4), Err(Refusal::Record));
    assert_eq!(register.lock(1), Err(Refusal::Already));
    assert_eq!(register.unlock(0), Err(Refusal::Absent));
    assert_eq!(register.words(), before.words());
    register.withdraw(3).unwrap();
    assert!(register.is_withdrawn(3) && !register.is_withdrawn(0) && !register.is_withdrawn(4));
    let before = register.clone();
    assert_eq!(register.lock(3), Err(Refusal::Withdrawn));
    assert_eq!(register.withdraw(0), Err(Refusal::Touched));
    assert_eq!((register.withdraw(1), register.withdraw(3)), (Err(Refusal::Locked), Err(Refusal::Already)));
    assert_eq!(register.reinstate(0), Err(Refusal::Absent));
    assert_eq!(register.words(), before.words());
    assert!(register.chain(3, 3, "a*").unwrap().is_none());
    register.reinstate(3).unwrap();
    for _ in 0..2 {
        register.undo().unwrap();
    }
    assert!(!register.is_withdrawn(3) && register.chain(3, 3, "a*").unwrap().is_some());
    for _ in 0..4 {
        register.undo().unwrap();
    }
    assert_eq!(register.undo(), Err(Refusal::NoneHeld));
    assert_eq!(register.links().unwrap().len(), 0);
}

#[test]
fn refusals_of_questions() {
    let register = &cases().unwrap();
    assert_eq!(Register::fresh(0).err(), Some(Refusal::Size));
    assert_eq!(Register::fresh(1025).err(), Some(Refusal::Size));
    assert_eq!(register.pairs("").err(), Some(Refusal::Grammar));
    assert_eq!(register.pairs([b' '; 257]).err(), Some(Refusal::Limits));
    assert_eq!(register.chain(0, 4, "").err(), Some(Refusal::Record));
    let (mut work, mut list) = ([0; 256], [7; 3]);
    assert_eq!(register.pairs_in("a", &mut work[..dating::tree_work(4) - 1], &mut list).err(), Some(Refusal::Work));
    assert_eq!(register.chain_in(2, 2, "(a|b)+", &mut work, &mut list[..2]).err(), Some(Refusal::List));
    assert_eq!(list, [7; 3]);
    assert_eq!(register.pairs_in("a", &mut work, &mut list).unwrap().words(), [1, 1026]);
    assert_eq!(list, [1, 1026, 7]);
}

#[test]
fn short_lists_get_the_first_pairs_and_the_total() {
    let register = cases().unwrap();
    let mut work = [0; 256];
    for room in 0..=4 {
        let mut list = [7; 5];
        let pairs = register.pairs_in("a+", &mut work, &mut list[..room]).unwrap();
        assert_eq!((pairs.total(), pairs.len()), (3, room.min(3)));
        let mut left = [1, 2, 1026, 7, 7];
        left[room.min(3)..].fill(7);
        assert_eq!(list, left);
    }
}

#[test]
fn words_are_kept_and_taken_again() {
    let register = cases().unwrap();
    let mut again = Register::of_words(register.words()).unwrap();
    assert_eq!(pairs(&again, "a/b"), [(1, 0)]);
    again.undo().unwrap();
    assert_eq!(pairs(&again, "a/b"), []);
    assert_eq!(Register::of_words(&register.words()[1..]).err(), Some(Refusal::NotOpened));
}

#[test]
fn trees() {
    let mut trees = Trees::below(4).unwrap();
    let a = trees.make([(1, 2), (0, 1), (1, 2)]).unwrap();
    assert_eq!(a.words(), [0b0100_0010_0011]);
    let b = trees.make([(2, 0), (0, 1)]).unwrap();
    let mut list = |tree: Result<Tree, Refusal>| trees.list(&tree.unwrap()).unwrap().collect::<Vec<_>>();
    let mut other = Trees::below(4).unwrap();
    assert_eq!(list(other.union(&a, &b)), [(0, 1), (1, 2), (2, 0)]);
    assert_eq!(list(other.intersection(&a, &b)), [(0, 1)]);
    assert_eq!(list(other.difference(&a, &b)), [(1, 2)]);
    assert_eq!(list(other.product(&a, &b)), [(1, 0)]);
    assert_eq!(list(other.product_sensed(&a, Sense::Plain, &b, Sense::Inverted)), [(0, 0)]);
    assert_eq!(list(other.product_sensed(&a, Sense::Inverted, &b, Sense::Plain)), [(1, 1)]);
    assert_eq!(list(other.product_sensed(&a, Sense::Inverted, &b, Sense::Inverted)), [(1, 2), (2, 0)]);
    assert_eq!(list(other.transpose(&a)), [(1, 0), (2, 1)]);
    assert_eq!(list(other.closure(&a)), [(0, 1), (0, 2), (1, 2)]);
    assert_eq!(trees.make([(0, 4)]), Err(Refusal::Record));
    assert_eq!(trees.make([(0, 1024)]), Err(Refusal::Record));
    assert_eq!(trees.list(&Tree::of_words(vec![0])).err(), Some(Refusal::Tree));
    assert_eq!(Trees::below(0).err().or(Trees::below(1025).err()), Some(Refusal::Size));
}

/// Equal by what is asked and undone, and not by words that no call reads.
#[test]
fn equal_registers() {
    let (mut one, mut other) = (cases().unwrap(), cases().unwrap());
    assert_eq!(one, other);
    one.add(3, 'c', 3).unwrap();
    assert_ne!(one, other);
    one.undo().unwrap();
    assert_eq!(one, other);
    assert_eq!(one, one.clone());
    one.lock(1).unwrap();
    one.unlock(1).unwrap();
    assert_ne!(one, other, "two more edits are held");
    for register in [&mut one, &mut other] {
        for _ in 0..200 {
            register.lock(2).unwrap();
            register.unlock(2).unwrap();
        }
    }
    assert_eq!(one, other, "the same 256 edits are held, at other places of the ring");
    assert_ne!(one.words(), other.words());
    assert_ne!(Register::fresh(3), Register::fresh(4));
}

/// Questions from several threads at once, each answered as alone.
#[test]
fn questions_at_once() {
    let register = &cases().unwrap();
    let alone: Vec<_> = register.pairs("(a|b)+").unwrap().collect();
    std::thread::scope(|scope| {
        for _ in 0..4 {
            scope.spawn(|| {
                for _ in 0..50 {
                    for (from, to) in register.pairs("(a|b)+").unwrap() {
                        assert!(register.chain(from, to, "(a|b)+").unwrap().is_some());
                    }
                    assert_eq!(register.pairs("(a|b)+").unwrap().collect::<Vec<_>>(), alone);
                }
            });
        }
    });
}

/// Each kind of edit as text, and each made by `apply` and taken back; a refused list tells why by its source too.
#[test]
fn every_kind_of_edit() {
    let link = Link { from: 0, letter: 'a', to: 1 };
    let edits = [Edit::Remove(link), Edit::Add(link), Edit::Lock(3), Edit::Unlock(3), Edit::Withdraw(3), Edit::Reinstate(3), Edit::Undo];
    let texts = ["remove 0 a 1", "add 0 a 1", "lock 3", "unlock 3", "withdraw 3", "reinstate 3", "undo"];
    let mut register = cases().unwrap();
    for (edit, text) in edits.into_iter().zip(texts) {
        assert_eq!(edit.to_string(), text);
        register.apply(&edit).unwrap();
    }
    assert!(register.is_withdrawn(3));
    let refused = register.apply_all(&[Edit::Reinstate(3), Edit::Reinstate(3)]).unwrap_err();
    assert_eq!((refused.place, refused.source().unwrap().to_string()), (1, refused.refusal.to_string()));
    assert_eq!(format!("{register:?}"), "Register { size: 4, .. }");
}
