//! A floating chronology dated against a base within limits. Record 0 is a dated beam. Cores 1 to 4 float: two poor matches tie core 1 to the beam, cores 2
//! and 3 overlap it within a few rings, and core 4 overlaps core 3 but no other.

use dating::{Offset, Offsets, Refusal, Register, Tie};

fn main() -> Result<(), Refusal> {
    let register = Register::fresh(6)?;
    let tie = |first, second, least, most| Tie { first, second, least, most };
    let mut ties =
        vec![tie(0, 1, 31, 38), tie(0, 1, 35, 44), tie(1, 2, -12, -9), tie(3, 1, 5, 7), tie(3, 4, 100, 120), tie(2, 4, 101, 104)];
    print(register.offsets(0, &ties)?);
    ties.push(tie(4, 0, -120, -110));
    print(register.offsets(0, &ties)?);
    Ok(())
}

fn print(offsets: Offsets) {
    let Offsets::Known(offsets) = offsets else {
        println!("the ties cannot all hold");
        return;
    };
    for (record, offset) in offsets.iter().enumerate() {
        match offset {
            Offset::Limits { least, most } => println!("record {record} begins {least} to {most} rings after the beam"),
            Offset::Free => println!("record {record} is free"),
        }
    }
}
