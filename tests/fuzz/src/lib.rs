//! A differential fuzzer: random histories of replay lines go through a replay
//! program and through the twin, and both have to write the same bytes.

pub mod args;
pub mod batch;
pub mod book;
pub mod choose;
pub mod compare;
pub mod coverage;
pub mod cuts;
pub mod edit;
pub mod fixed;
pub mod flaws;
pub mod fuzz;
pub mod generator;
pub mod meeting;
pub mod mutate;
pub mod observe;
pub mod places;
pub mod program;
pub mod random;
pub mod reasons;
pub mod report;
pub mod shrink;
pub mod temper;
pub mod values;

/// A call with the bytes of its packet.
pub type Call = twin::Call<Vec<u8>>;
