//! One system on one sheet: the result lines.

use crate::answer::{line, microseconds, once, timed, timed_ask};
use crate::sheet::Sheet;
use crate::system::{Peer, LIST};
use std::io::{self, Write};
use std::path::Path;
use std::process::ExitCode;

/// The `main` of a runner: takes the sheet's file as its only argument; fails if a call is refused.
pub fn main(peer: Peer) -> ExitCode {
    let arguments: Vec<_> = std::env::args_os().skip(1).collect();
    let outcome = match &arguments[..] {
        [file] => Sheet::read(Path::new(file)).and_then(|sheet| run(peer, &sheet, once(), &mut io::stdout())),
        _ => Err("one argument: the sheet's file".into()),
    };
    match outcome {
        Ok(()) => ExitCode::SUCCESS,
        Err(message) => {
            eprintln!("{message}");
            ExitCode::FAILURE
        }
    }
}

pub fn run(peer: Peer, sheet: &Sheet, once: bool, out: &mut dyn Write) -> Result<(), String> {
    let mut print = |line: String| writeln!(out, "{line}").and_then(|()| out.flush()).map_err(|error| error.to_string());
    print(format!("peer {}", peer.name))?;
    let (system, time) = timed(true, || (peer.load)(sheet.n, &sheet.links));
    let mut system = system.map_err(|number| format!("load refused {number}"))?;
    print(format!("load {:.3}", microseconds(time)))?;
    let mut list = vec![0; LIST];
    for (index, question) in sheet.questions.iter().enumerate() {
        let (reply, time) = timed_ask(once, &mut *system, question, &mut list);
        let line = line(index, question, reply, &list);
        if reply.is_err() {
            return Err(line);
        }
        print(format!("{line} {:.3}", microseconds(time)))?;
    }
    Ok(())
}

#[cfg(test)]
mod tests {
    use super::*;
    use crate::plain;

    fn lines(text: &str) -> Result<Vec<String>, String> {
        let mut out = Vec::new();
        run(plain::PEER, &Sheet::parse("s", text)?, true, &mut out)?;
        let untimed = |line: &str| match line.rsplit_once(' ') {
            Some((rest, time)) if time.parse::<f64>().is_ok() => rest.to_string(),
            _ => line.to_string(),
        };
        Ok(String::from_utf8(out).unwrap().lines().map(untimed).collect())
    }

    #[test]
    fn result_lines_in_order() {
        let text = "open 4\nadd 0 a 1\nedit 1 b 1\nchain c 0 0 a?\nchain c 1 0 a\npairs p b\nchain c 0 1 a\n";
        let expected =
            ["peer plain", "load", "edit 0", "chain 1 0 00000000", "chain 2 none -", "pairs 3 0 00000000", "chain 4 1 00000002"];
        assert_eq!(lines(text).unwrap(), expected);
    }

    #[test]
    fn a_refusal_is_an_error() {
        assert_eq!(lines("open 2\nadd 0 a 2\n"), Err("load refused 2".into()));
        assert_eq!(lines("open 2\npairs p a**\n"), Err("pairs 0 refused 9".into()));
    }
}
