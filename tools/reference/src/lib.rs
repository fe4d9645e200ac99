//! An independent reference for the convertibility calculator.
//!
//! The first modules are the rules of docs/RULES.md on trees: terms, their
//! words, contraction, positions, presses, tables, lines, encodings, and the two
//! programs as functions from input bytes to printed text. `generate` makes
//! inputs for the programs from fixed seeds; `part`, `default`, `shape`,
//! `choice`, `exchange`, `tally` and `child` serve the `compare` program, which
//! runs the built programs on those inputs.

pub mod child;
pub mod choice;
pub mod contraction;
pub mod default;
pub mod encoding;
pub mod exchange;
pub mod generate;
pub mod input;
pub mod line;
pub mod part;
pub mod position;
pub mod press;
pub mod random;
pub mod refusal;
pub mod replay;
pub mod shape;
pub mod table;
pub mod tally;
pub mod term;
pub mod verdict;
pub mod words;

/// Enough for every recursion over a term of 2,048 words, or over that of the
/// longest encoding.
pub const LARGE_STACK: usize = 256 << 20;

/// Runs `work` on a thread whose stack holds the deepest terms.
pub fn on_large_stack<T: Send>(work: impl FnOnce() -> T + Send) -> T {
    std::thread::scope(|scope| {
        let thread = std::thread::Builder::new()
            .stack_size(LARGE_STACK)
            .spawn_scoped(scope, work)
            .expect("the system starts a thread");
        thread
            .join()
            .unwrap_or_else(|panic| std::panic::resume_unwind(panic))
    })
}
