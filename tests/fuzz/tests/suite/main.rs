//! The fuzzer's own tests: wrong replays are found out, the twin passes.

mod common;
mod right;
mod wrong_answers;
mod wrong_programs;
