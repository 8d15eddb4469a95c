//! The Rust baselines, careful and at its limit; the benchmark's driver is the program beside them.

pub mod careful;
pub mod plain;
