//! Tests and benchmarks of the proved crates against a second implementation.
pub mod assemble;
pub mod finish;
pub mod generate;
pub mod mutation;
pub mod peer;
pub mod random;
pub mod text;
pub mod texts;
pub mod witness;
pub mod workload;
