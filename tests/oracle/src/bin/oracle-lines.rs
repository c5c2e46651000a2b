//! Typed lines on standard input, such as `add 0 a 1`, to frames on standard output.

use std::io::{self, BufRead, BufWriter, Write};

fn main() -> io::Result<()> {
    let mut output = BufWriter::new(io::stdout().lock());
    for (line, number) in io::stdin().lock().lines().zip(1..) {
        match oracle::lines::bytes(&line?) {
            Ok(bytes) => output.write_all(&bytes)?,
            Err(why) => {
                eprintln!("line {number}: {why}");
                std::process::exit(2);
            }
        }
    }
    output.flush()
}
