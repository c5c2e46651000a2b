//! `runner-engine FILE`: the engine's result lines on a sheet.

use std::process::ExitCode;

fn main() -> ExitCode {
    bench::runner::main(bench::engine::PEER)
}
