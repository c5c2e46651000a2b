//! What the tests and the measurements share: the engine's tree calls, plain sets of pairs, random sets, and the engine's algorithms in Rust.

pub mod engine;
pub mod lent;
pub mod plain;
pub mod random;
pub mod same;
