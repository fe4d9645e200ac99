//! The programs `verdict` and `replay` measured beside peers in plain Rust, and the text command beside
//! single runs.

pub mod cases;
mod elf;
pub mod encodings;
pub mod keys;
pub mod lines;
pub mod measure;
mod numbers;
pub mod peers;
pub mod plot;
pub mod probe;
pub mod report;
pub mod run;
mod times;
