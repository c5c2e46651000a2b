//! Requests to the program as frames: a two-byte length of what follows it, a two-byte kind, a body; little-endian.

use crate::book::{Call, Link};
use crate::Refusal;

/// The lengths that a frame may state.
pub const LENGTHS: std::ops::RangeInclusive<usize> = 2..=1024;

#[derive(Clone, Debug, PartialEq, Eq)]
pub enum Request {
    Open(u32),
    Edit(Call),
    Pairs(Vec<u8>),
    Chain(u32, u32, Vec<u8>),
    Total(u32),
}

impl Request {
    /// What a frame with this kind and body asks: 15 for an unknown kind, then 14 for a wrong body size.
    pub fn read(kind: u16, body: &[u8]) -> Result<Request, Refusal> {
        match kind {
            1 => match *body {
                [a, b] => Ok(Request::Open(number(a, b))),
                _ => Err(Refusal::Frame),
            },
            2 | 3 => match *body {
                [a, b, label, c, d] => {
                    let link = Link { from: number(a, b), label: u32::from(label), to: number(c, d) };
                    Ok(Request::Edit(if kind == 2 { Call::Add(link) } else { Call::Remove(link) }))
                }
                _ => Err(Refusal::Frame),
            },
            4 | 5 | 10 | 11 => match *body {
                [a, b] => {
                    let record = number(a, b);
                    Ok(Request::Edit(match kind {
                        4 => Call::Lock(record),
                        5 => Call::Unlock(record),
                        10 => Call::Withdraw(record),
                        _ => Call::Reinstate(record),
                    }))
                }
                _ => Err(Refusal::Frame),
            },
            6 => match *body {
                [] => Ok(Request::Edit(Call::Undo)),
                _ => Err(Refusal::Frame),
            },
            7 => Ok(Request::Pairs(body.to_vec())),
            8 => match *body {
                [a, b, c, d, ref text @ ..] => Ok(Request::Chain(number(a, b), number(c, d), text.to_vec())),
                _ => Err(Refusal::Frame),
            },
            9 => match *body {
                [label] => Ok(Request::Total(u32::from(label))),
                _ => Err(Refusal::Frame),
            },
            _ => Err(Refusal::Kind),
        }
    }

    /// The frame of this request. Numbers must fit their fields, and the body its frame.
    pub fn frame(&self) -> Vec<u8> {
        match self {
            Request::Open(n) => frame(1, &two(*n)),
            Request::Edit(Call::Add(link)) => frame(2, &link_body(link)),
            Request::Edit(Call::Remove(link)) => frame(3, &link_body(link)),
            Request::Edit(Call::Lock(record)) => frame(4, &two(*record)),
            Request::Edit(Call::Unlock(record)) => frame(5, &two(*record)),
            Request::Edit(Call::Undo) => frame(6, &[]),
            Request::Edit(Call::Withdraw(record)) => frame(10, &two(*record)),
            Request::Edit(Call::Reinstate(record)) => frame(11, &two(*record)),
            Request::Pairs(text) => frame(7, text),
            Request::Chain(from, to, text) => frame(8, &[&two(*from)[..], &two(*to), text].concat()),
            Request::Total(label) => frame(9, &[one(*label)]),
        }
    }
}

/// A frame of any kind and body.
pub fn frame(kind: u16, body: &[u8]) -> Vec<u8> {
    let length = body.len() + 2;
    assert!(LENGTHS.contains(&length), "a frame of length {length}");
    [&(length as u16).to_le_bytes()[..], &kind.to_le_bytes(), body].concat()
}

fn number(low: u8, high: u8) -> u32 {
    u32::from(low) + 256 * u32::from(high)
}

fn two(value: u32) -> [u8; 2] {
    u16::try_from(value).expect("a number of two bytes").to_le_bytes()
}

fn one(label: u32) -> u8 {
    u8::try_from(label).expect("a label of one byte")
}

fn link_body(link: &Link) -> Vec<u8> {
    [&two(link.from)[..], &[one(link.label)], &two(link.to)].concat()
}
