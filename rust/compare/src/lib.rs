//! Compares the checker's archive with the second implementation, call by call.
//!
//! The archive is called through the crate `tyvasuri`, over any bytes, with memory that was
//! filled with noise. Its answer has to be that of the crate `second`, and the memory has to be
//! left as document 01 says: after a refusal every cell as it was; else the working memory past
//! the 16,384th number, the tape memory but for the tapes, and the output memory past the lines.
//!
//! Small sheets are held against the second implementation's literal way, which lists all runs;
//! large ones and damaged ones against its tables. Every sheet comes from a seed.
//!
//! - `cargo test --release` is a bounded comparison;
//! - `cargo run --release --bin long -- SMALL LARGE SEED` is one of so many sheets;
//! - `cargo run --release --bin sheets` writes the sheets of the benchmark;
//! - `cargo run --release --bin bench` times both sides on them.

pub mod answer;
pub mod archive;
pub mod arguments;
pub mod comparison;
pub mod difference;
pub mod faults;
pub mod memory;
pub mod query;
pub mod sheets;
pub mod tally;
pub mod wanted;
