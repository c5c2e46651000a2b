//! The program (S7): frames on standard input, lines on standard output.

use std::io::{self, BufReader, BufWriter, Write};

fn main() -> io::Result<()> {
    let mut output = BufWriter::new(io::stdout().lock());
    oracle::program::run(BufReader::new(io::stdin().lock()), &mut output)?;
    output.flush()
}
