//! Expressions: the grammar of `docs/SCOPE.md`, S3, read by recursive descent.

use crate::system::Refusal;

#[derive(Clone, Debug, PartialEq, Eq)]
pub enum Expression {
    Letter(u32),
    NoneOf(Members),
    Inverse(Box<Expression>),
    Alternative(Box<Expression>, Box<Expression>),
    Sequence(Box<Expression>, Box<Expression>),
    Star(Box<Expression>),
    Plus(Box<Expression>),
    Optional(Box<Expression>),
}

use Expression::*;

/// The members of a negated set: the plain labels and the inverted ones, as sets of bits.
#[derive(Clone, Copy, Debug, Default, PartialEq, Eq)]
pub struct Members {
    pub plain: u32,
    pub inverted: u32,
}

impl Members {
    /// The letters that the set stands for, each as label × 2 + sense.
    pub fn others(self) -> impl Iterator<Item = u32> {
        let members = [self.plain, self.inverted];
        (0..52).filter(move |letter| members[*letter as usize % 2] != 0 && members[*letter as usize % 2] >> (letter / 2) & 1 == 0)
    }
}

/// Reads a whole text; refused with 10 for bytes, 9, 10 for letters and depth, in this order.
pub fn read(text: &[u8]) -> Result<Expression, Refusal> {
    if text.len() > 256 {
        return Err(10);
    }
    let mut reader = Reader { text, at: 0, letters: 0, depth: 0, deepest: 0 };
    let expression = reader.alternatives().filter(|_| reader.at == text.len()).ok_or(9u32)?;
    if reader.letters > 63 || reader.deepest > 8 {
        return Err(10);
    }
    Ok(expression)
}

struct Reader<'a> {
    text: &'a [u8],
    at: usize,
    letters: u32,
    depth: u32,
    deepest: u32,
}

/// Each of these gives none at a fault.
impl Reader<'_> {
    fn alternatives(&mut self) -> Option<Expression> {
        let mut left = self.parts()?;
        while self.takes(b'|') {
            left = Alternative(Box::new(left), Box::new(self.parts()?));
        }
        Some(left)
    }

    fn parts(&mut self) -> Option<Expression> {
        let mut left = self.part()?;
        while self.takes(b'/') {
            left = Sequence(Box::new(left), Box::new(self.part()?));
        }
        Some(left)
    }

    fn part(&mut self) -> Option<Expression> {
        let inverse = self.takes(b'^');
        let atom = self.atom()?;
        let marked = if self.takes(b'*') {
            Star(Box::new(atom))
        } else if self.takes(b'+') {
            Plus(Box::new(atom))
        } else if self.takes(b'?') {
            Optional(Box::new(atom))
        } else {
            atom
        };
        Some(if inverse { Inverse(Box::new(marked)) } else { marked })
    }

    fn atom(&mut self) -> Option<Expression> {
        if self.takes(b'(') {
            self.depth += 1;
            self.deepest = self.deepest.max(self.depth);
            let inner = self.alternatives()?;
            self.depth -= 1;
            return self.takes(b')').then_some(inner);
        }
        self.letters += 1;
        if self.takes(b'!') {
            return self.members().map(NoneOf);
        }
        self.label().map(Letter)
    }

    /// One member, or members in parentheses, which are no group.
    fn members(&mut self) -> Option<Members> {
        let many = self.takes(b'(');
        let mut members = Members::default();
        loop {
            let set = if self.takes(b'^') { &mut members.inverted } else { &mut members.plain };
            *set |= 1 << self.label()?;
            if !many {
                return Some(members);
            }
            if !self.takes(b'|') {
                return self.takes(b')').then_some(members);
            }
        }
    }

    fn label(&mut self) -> Option<u32> {
        let byte = self.text.get(self.at).filter(|byte| byte.is_ascii_lowercase())?;
        self.at += 1;
        Some(u32::from(byte - b'a'))
    }

    fn takes(&mut self, byte: u8) -> bool {
        let there = self.text.get(self.at) == Some(&byte);
        self.at += usize::from(there);
        there
    }
}

#[cfg(test)]
mod tests {
    use super::*;

    fn boxed(letter: u32) -> Box<Expression> {
        Box::new(Letter(letter))
    }

    #[test]
    fn marks_bind_closer_than_inversion_and_sequences_closer_than_alternatives() {
        assert_eq!(read(b"^a*"), Ok(Inverse(Box::new(Star(boxed(0))))));
        assert_eq!(read(b"a|b/c"), Ok(Alternative(boxed(0), Box::new(Sequence(boxed(1), boxed(2))))));
        assert_eq!(read(b"!(a|^c|b)*"), Ok(Star(Box::new(NoneOf(Members { plain: 0b11, inverted: 0b100 })))));
        assert_eq!(read(b"(a|b)/c"), Ok(Sequence(Box::new(Alternative(boxed(0), boxed(1))), boxed(2))));
    }

    #[test]
    fn faults_are_refused_with_9() {
        for text in [
            "", "()", "a**", "^^a", "A", "a b", " a", "a|", "|a", "a/", "(a", "a)", "^", "*", "ab", "a^", "a?+", "(^)", "1", "!",
            "!()", "!(a", "!(a|)", "!((a))", "!(a*)", "!(a/b)", "!!a", "!^^a", "^^!a",
        ] {
            assert_eq!(read(text.as_bytes()), Err(9), "{text}");
        }
    }

    #[test]
    fn limits_are_refused_with_10() {
        let sequence = |letters: usize| vec!["a"; letters].join("/");
        let nested = |depth: usize| "(".repeat(depth) + "a" + &")".repeat(depth);
        assert!(read(sequence(63).as_bytes()).is_ok());
        assert_eq!(read(sequence(64).as_bytes()), Err(10));
        assert!(read(nested(8).as_bytes()).is_ok());
        assert_eq!(read(nested(9).as_bytes()), Err(10));
        assert_eq!(read(&[b' '; 257]), Err(10));
        assert_eq!(read(&[b' '; 256]), Err(9));
        assert_eq!(read((sequence(64) + "|").as_bytes()), Err(9));
        assert_eq!(read((nested(9) + ")").as_bytes()), Err(9));
        assert!(read(nested(8).replace('a', "!(a|b)").as_bytes()).is_ok());
        assert!(read(sequence(63).replace('a', "!a").as_bytes()).is_ok());
        assert_eq!(read(sequence(64).replace('a', "!a").as_bytes()), Err(10));
        assert!(read(("(a)|".repeat(8) + "(a)").as_bytes()).is_ok());
    }
}
