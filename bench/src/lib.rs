//! The benchmark: sheets and questions in, result lines and tables out; and the plain baseline beside which systems are measured.
//!
//! * `sheet`, `answer`, `clock`: the files, result lines and times of `bench/sheets/README.md`.
//! * `system`: what a system under test has to offer, and the list of those that are compared.
//! * `runner`, `comparison`, `made`, `memory`: one system on one file; all systems side by side; made-up sheets; memory in use.
//! * `engine`: the engine, through the crate `dating`.
//! * `graphblas`, with the feature of that name: pair questions by SuiteSparse:GraphBLAS, through `graphblas.c`.
//! * `plain`, over `register`, `expression`, `rows` and `chains`: the baseline, written from the meaning in `docs/SCOPE.md`.

pub mod answer;
pub mod chains;
pub mod clock;
pub mod comparison;
pub mod engine;
pub mod expression;
#[cfg(feature = "graphblas")]
pub mod graphblas;
pub mod made;
pub mod memory;
pub mod plain;
pub mod register;
pub mod rows;
pub mod runner;
pub mod sheet;
pub mod system;
