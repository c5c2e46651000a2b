//! A surveyor's worry: which samples would lose their date with a core? Overlaps are links o; records 0 and 1 are beams of known date, and a sample is
//! dated by any number of overlaps, either way, to one of them.

use dating::{Refusal, Register};

fn main() -> Result<(), Refusal> {
    let mut register = Register::fresh(9)?;
    for (from, to) in [(2, 0), (3, 2), (4, 2), (4, 5), (5, 1), (6, 3), (7, 6), (7, 8)] {
        register.add(from, 'o', to)?;
    }
    // A locked core is asked about like any other.
    register.lock(2)?;
    for core in 2..9 {
        let fallen: Vec<u16> = register.sole_support(core, "(o|^o)*", &[0, 1])?.collect();
        println!("lost with core {core}: {fallen:?}");
    }
    Ok(())
}
