//! Two readers of the same notation: the unit's, which reads lines, and the one of the command `judge`.
//! They are run on the same lines and have to agree.

mod comparison;
mod expected;
mod line;

pub use comparison::{compare, Counts};
pub use expected::{is_common, text_words, Expected, TextReader};
