//! A surveyor's question: which samples are dated, by any number of overlaps, against a beam of known date, and how is sample 5?
//! Overlaps are links o, "lies in the same beam as" is b; record 0 is dated.

use dating::{Refusal, Register};

fn main() -> Result<(), Refusal> {
    let mut register = Register::fresh(6)?;
    for (from, letter, to) in [(0, 'o', 1), (2, 'o', 1), (2, 'b', 3), (4, 'o', 3), (4, 'o', 5)] {
        register.add(from, letter, to)?;
    }
    let dated = register.pairs("(o|^o|b|^b)+")?.filter(|&(from, to)| from == 0 && to != 0);
    println!("dated against 0: {:?}", dated.map(|(_, to)| to).collect::<Vec<_>>());
    if let Some(steps) = register.chain(0, 5, "(o|^o|b|^b)+")? {
        steps.for_each(|step| println!("{step}"));
    }
    Ok(())
}
