//! Answers questions about role boards, in plain Rust and with nothing proved.
//!
//! It shares no line with the crates of this repository: what it does follows from the pages in `docs/` alone, so that two programs that agree are two opinions.

pub mod board;
pub mod check;
pub mod decide;
pub mod report;
pub mod set;
pub mod text;
