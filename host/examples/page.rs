//! A page for a bound volume: which samples are dated, by any number of overlaps, against one another. The pairs are then read back from the page.

use dating::{Refusal, Register, read_pages};

const EXPRESSION: &str = "(o|^o|b|^b)+";

fn main() -> Result<(), Refusal> {
    let mut register = Register::fresh(6)?;
    for (from, letter, to) in [(0, 'o', 1), (2, 'o', 1), (2, 'b', 3), (4, 'o', 5)] {
        register.add(from, letter, to)?;
    }
    let pages = register.pages(EXPRESSION)?;
    print!("{}", String::from_utf8_lossy(&pages));
    println!("{} pairs", read_pages(EXPRESSION, &pages)?.len());
    Ok(())
}
