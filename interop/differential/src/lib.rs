//! Tests of the proved library from outside: inputs, comparisons with the reference implementation,
//! and what the benchmarks measure. The tests stand in `tests/`.

#![forbid(unsafe_code)]

pub mod cases;
pub mod compare;
pub mod cores;
pub mod damage;
pub mod domain;
pub mod draft;
pub mod generate;
pub mod inputs;
pub mod irrelevant;
pub mod joins;
pub mod listings;
pub mod programs;
pub mod random;
pub mod relevance;
pub mod runner;
pub mod unmet;
pub mod walk;
pub mod wide;
