//! `runner-plain FILE`: the baseline's result lines on a sheet.

use std::process::ExitCode;

fn main() -> ExitCode {
    bench::runner::main(bench::plain::PEER)
}
