//! The dating register and its path engine, from Rust.
//!
//! A [`Register`] has records 0 to n − 1, links between them with letters a to z, locks, and undo. Two questions are asked of it: which
//! pairs of records are joined by a path expression, and which is the first of the shortest chains between two records. The engine is
//! written in Rattle, and every function of it is proved to meet its contract; this crate only lends it memory.
//!
//! ```
//! use dating::Register;
//!
//! let mut register = Register::fresh(4)?;
//! register.add(0, 'a', 1)?;
//! register.add(2, 'a', 1)?;
//! register.add(1, 'b', 3)?;
//! let pairs: Vec<(u16, u16)> = register.pairs("a/^a")?.collect();
//! assert_eq!(pairs, [(0, 0), (0, 2), (2, 0), (2, 2)]);
//! let steps: Vec<String> = register.chain(0, 3, "a/b")?.expect("a chain").map(|step| step.to_string()).collect();
//! assert_eq!(steps, ["a + 1", "b + 3"]);
//! # Ok::<(), dating::Refusal>(())
//! ```
//!
//! Expressions, from loosest to closest: `|` between alternatives; `/` between the parts of a sequence; a part is an optional `^`
//! (inverse), a letter, a negated set (`!a`, `!^a`, `!(a|^b)`) or a group in parentheses, and at most one of `*`, `+`, `?`.
//! At most 256 bytes, 63 letters, groups 8 deep.
//!
//! A negated set with plain members crosses forward any link whose letter is none of them; one with `^` members crosses against its sense
//! any link whose letter is none of those; one with both does either. So `!(a|^b)` crosses `a` backward and `b` forward. To keep off `a`
//! and `b` in both senses, write `!(a|b|^a|^b)`.
//!
//! ```
//! # use dating::Register;
//! let mut register = Register::fresh(3)?;
//! register.add(0, 'a', 1)?;
//! register.add(1, 'b', 2)?;
//! let pairs = |expression: &str| Ok::<_, dating::Refusal>(register.pairs(expression)?.collect::<Vec<(u16, u16)>>());
//! assert_eq!(pairs("!(a|^b)")?, [(1, 0), (1, 2)]);
//! assert_eq!(pairs("!(a|b|^a|^b)")?, []);
//! # Ok::<(), dating::Refusal>(())
//! ```
//!
//! A call that cannot be done is refused with the first of its causes, a [`Refusal`], and then nothing is changed.
//!
//! * [`Register`]: edits, undo, both questions, closing up, sole support, and offsets known within limits
//! * [`Register::pages`] and [`read_pages`]: the answer of a pair question as printed pages, and the pairs read back
//! * [`Edit`] and [`Draft`]: edits by name, for a preview of what one would do to an answer, and for lists that are made all or none
//! * [`Generations`]: the longest run of links to each record, or the first loop
//! * [`Trees`] and [`Tree`]: sets of pairs as k2-trees, and their algebra
//! * [`calls`]: the engine's functions as they are exported, on plain slices
//!
//! A call takes at most 464 KB of stack, which listing a tree does; a thread of 512 KB is enough for every call.

mod by_rows;
pub mod calls;
mod closing;
mod drafts;
mod edits;
mod generations;
mod items;
mod offsets;
mod pages;
mod previews;
mod refusal;
mod register;
mod space;
mod support;
mod tree;

pub use drafts::Draft;
pub use edits::{Edit, RefusedAt};
pub use generations::{Generations, Numbers};
pub use items::{Link, Links, Pairs, Records, Step, Steps};
pub use offsets::{Offset, Offsets, Tie};
pub use pages::{page_bytes, read_pages};
pub use refusal::Refusal;
pub use register::{Mark, Register};
pub use space::{chain_work, longest_chain, most_pairs, offsets_work, rows_work, support_work, tree_words, tree_work};
pub use tree::{Sense, Tree, Trees};
