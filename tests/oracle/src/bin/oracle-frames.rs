//! `oracle-frames SEED COUNT`: a random session of COUNT frames on standard output, the same for the same arguments.

use std::io::{self, Write};

fn main() -> io::Result<()> {
    let arguments: Vec<u64> = std::env::args().skip(1).map_while(|argument| argument.parse().ok()).collect();
    let [seed, count] = arguments[..] else {
        eprintln!("usage: oracle-frames SEED COUNT");
        std::process::exit(2);
    };
    io::stdout().write_all(&oracle::random::session(seed, count as usize))
}
