//! What the tools know of the unit: its words and limits, terms as text, as words, as stored tables
//! and as encodings, and the programs `verdict` and `replay`. The rules are those of docs/RULES.md; the
//! notations of terms, with indices and with names, are those of docs/NOTATION.md.
//!
//! Nothing here decides anything about a term: whatever a table can hold goes to the program, which
//! refuses what is out of range. Terms are flat and every walk is a loop, so no depth of nesting
//! exhausts the machine stack.

pub mod characters;
mod draft;
mod encoding;
pub mod limits;
mod named;
mod notation;
mod print;
pub mod program;
pub mod repository;
pub mod script;
mod table;
mod term;
mod text;
pub mod word;
mod words;

pub use encoding::{bits_text, encoding_bits, encoding_text, read_bits, BitError};
pub use named::{NameError, Names};
pub use print::Printed;
pub use table::{table, table_text, FORM, RECORD};
pub use term::Term;
pub use text::{quoted, TextError};
pub use words::{words_text, WordError};
