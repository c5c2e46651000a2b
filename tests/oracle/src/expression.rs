//! Expressions, and their reader by recursive descent:
//!
//! ```text
//! alternatives = sequence { "|" sequence }
//! sequence     = part { "/" part }
//! part         = [ "^" ] ( letter | set | "(" alternatives ")" ) [ "*" | "+" | "?" ]
//! set          = "!" ( member | "(" member { "|" member } ")" )
//! member       = [ "^" ] letter
//! letter       = "a" | .. | "z"
//! ```

use crate::Refusal;

pub const MAX_BYTES: usize = 256;
pub const MAX_LETTERS: usize = 63;
pub const MAX_DEPTH: usize = 8;

/// A letter of a word: a label, and whether its link is crossed against its sense.
#[derive(Clone, Copy, Debug, PartialEq, Eq, PartialOrd, Ord)]
pub struct Letter {
    pub label: u32,
    pub against: bool,
}

/// An expression; a group is the expression that it holds.
#[derive(Clone, Debug, PartialEq, Eq)]
pub enum Expression {
    Letter(u32),
    /// A negated set with its members, as they stand.
    NoneOf(Vec<Letter>),
    Inverse(Box<Expression>),
    Star(Box<Expression>),
    Plus(Box<Expression>),
    Optional(Box<Expression>),
    Alternative(Box<Expression>, Box<Expression>),
    Sequence(Box<Expression>, Box<Expression>),
}

/// Reads a whole text. Refusals in their order: 10 for bytes, then 9, then 10 for letters and depth (S6.7).
pub fn read(text: &[u8]) -> Result<Expression, Refusal> {
    if text.len() > MAX_BYTES {
        return Err(Refusal::TooLong);
    }
    let mut reader = Reader { text, at: 0, letters: 0, depth: 0, deepest: 0 };
    let expression = reader.alternatives().ok_or(Refusal::Grammar)?;
    if reader.at < text.len() {
        return Err(Refusal::Grammar);
    }
    if reader.letters > MAX_LETTERS || reader.deepest > MAX_DEPTH {
        return Err(Refusal::TooLong);
    }
    Ok(expression)
}

/// The text, the place of the next byte, and what has been counted on the way. Each rule answers `None` if no text that
/// starts at its place fits it.
struct Reader<'a> {
    text: &'a [u8],
    at: usize,
    letters: usize,
    depth: usize,
    deepest: usize,
}

impl Reader<'_> {
    /// The next byte, which stays the next.
    fn next(&self) -> Option<u8> {
        self.text.get(self.at).copied()
    }

    /// Passes the next byte if it is this one.
    fn pass(&mut self, byte: u8) -> bool {
        let is = self.next() == Some(byte);
        if is {
            self.at += 1;
        }
        is
    }

    fn alternatives(&mut self) -> Option<Expression> {
        let mut left = self.sequence()?;
        while self.pass(b'|') {
            left = Expression::Alternative(Box::new(left), Box::new(self.sequence()?));
        }
        Some(left)
    }

    fn sequence(&mut self) -> Option<Expression> {
        let mut left = self.part()?;
        while self.pass(b'/') {
            left = Expression::Sequence(Box::new(left), Box::new(self.part()?));
        }
        Some(left)
    }

    fn part(&mut self) -> Option<Expression> {
        let inverse = self.pass(b'^');
        let mut part = self.atom()?;
        if self.pass(b'*') {
            part = Expression::Star(Box::new(part));
        } else if self.pass(b'+') {
            part = Expression::Plus(Box::new(part));
        } else if self.pass(b'?') {
            part = Expression::Optional(Box::new(part));
        }
        Some(if inverse { Expression::Inverse(Box::new(part)) } else { part })
    }

    fn atom(&mut self) -> Option<Expression> {
        if self.pass(b'(') {
            self.depth += 1;
            self.deepest = self.deepest.max(self.depth);
            let held = self.alternatives()?;
            self.depth -= 1;
            return self.pass(b')').then_some(held);
        }
        self.letters += 1;
        if self.pass(b'!') {
            return self.members().map(Expression::NoneOf);
        }
        self.label().map(Expression::Letter)
    }

    /// What a set leaves out: one member, or members in parentheses, which are no group.
    fn members(&mut self) -> Option<Vec<Letter>> {
        let many = self.pass(b'(');
        let mut members = vec![self.member()?];
        while many && self.pass(b'|') {
            members.push(self.member()?);
        }
        (!many || self.pass(b')')).then_some(members)
    }

    fn member(&mut self) -> Option<Letter> {
        let against = self.pass(b'^');
        Some(Letter { label: self.label()?, against })
    }

    fn label(&mut self) -> Option<u32> {
        let byte = self.next().filter(u8::is_ascii_lowercase)?;
        self.at += 1;
        Some(u32::from(byte - b'a'))
    }
}
