//! Hands standard input over to standard output a byte at a time, with a pause after each, so that who reads it from a
//! pipe gets single bytes.

use std::io::{self, Read, Write};
use std::thread::sleep;
use std::time::Duration;

fn main() -> io::Result<()> {
    let mut output = io::stdout().lock();
    for byte in io::stdin().lock().bytes() {
        output.write_all(&[byte?])?;
        output.flush()?;
        sleep(Duration::from_micros(20));
    }
    Ok(())
}
