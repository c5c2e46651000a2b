//! Typed lines to frames, for tests:
//!
//! ```text
//! open 4            add 0 a 1         lock 1            undo              chain 0 3 a/b
//! bytes 01 00 ff    remove 0 a 1      unlock 1          pairs a/^a        total a
//! withdraw 1        reinstate 1       # a remark
//! ```
//!
//! A label is a letter from a to z or a number. An expression is all that follows its space, and may be empty. `bytes`
//! gives these bytes as they are, in two hexadecimal digits each. Remarks and empty lines give nothing.

use crate::book::{Call, Link};
use crate::frame::Request;

/// The bytes that a line stands for, or why it is no such line.
pub fn bytes(line: &str) -> Result<Vec<u8>, String> {
    if line.is_empty() || line.starts_with('#') {
        return Ok(Vec::new());
    }
    let (word, rest) = line.split_once(' ').unwrap_or((line, ""));
    if word == "bytes" {
        let digits = |byte| u8::from_str_radix(byte, 16).map_err(|_| format!("{byte} is no byte"));
        return rest.split_whitespace().map(digits).collect();
    }
    Ok(request(word, rest)?.frame())
}

fn request(word: &str, rest: &str) -> Result<Request, String> {
    let fields: Vec<&str> = rest.split(' ').collect();
    Ok(match (word, &fields[..]) {
        ("open", [n]) => Request::Open(number(n)?),
        ("add", [from, label, to]) => Request::Edit(Call::Add(link(from, label, to)?)),
        ("remove", [from, label, to]) => Request::Edit(Call::Remove(link(from, label, to)?)),
        ("lock", [record]) => Request::Edit(Call::Lock(number(record)?)),
        ("unlock", [record]) => Request::Edit(Call::Unlock(number(record)?)),
        ("withdraw", [record]) => Request::Edit(Call::Withdraw(number(record)?)),
        ("reinstate", [record]) => Request::Edit(Call::Reinstate(number(record)?)),
        ("undo", [""]) => Request::Edit(Call::Undo),
        ("pairs", _) => Request::Pairs(rest.into()),
        ("chain", [from, to, text @ ..]) => Request::Chain(number(from)?, number(to)?, text.join(" ").into()),
        ("total", [letter]) => Request::Total(label(letter)?),
        _ => return Err(format!("{word} {rest} is no request")),
    })
}

fn number(text: &str) -> Result<u32, String> {
    text.parse::<u16>().map(u32::from).map_err(|_| format!("{text} is no number of two bytes"))
}

fn label(text: &str) -> Result<u32, String> {
    let label = match *text.as_bytes() {
        [letter @ b'a'..=b'z'] => letter - b'a',
        _ => text.parse::<u8>().map_err(|_| format!("{text} is no label of one byte"))?,
    };
    Ok(u32::from(label))
}

fn link(from: &str, letter: &str, to: &str) -> Result<Link, String> {
    Ok(Link { from: number(from)?, label: label(letter)?, to: number(to)? })
}
