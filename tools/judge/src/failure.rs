//! Why no line was printed.

use std::fmt::Display;

#[derive(Debug, PartialEq, Eq)]
pub struct Failure {
    pub status: u8,
    /// Empty where nobody is to be told.
    pub message: String,
}

impl Failure {
    /// The program cannot be built or run, printed no line, or its line cannot be passed on.
    pub fn program(message: String) -> Failure {
        Failure { status: 3, message }
    }

    /// The arguments are none of the forms that `--help` lists.
    pub fn usage(reason: String) -> Failure {
        Failure::text(format!("{reason}\nSee judge --help."))
    }

    /// Text, words, bits or an encoding that are no term, or a term without words or an encoding.
    pub fn text(message: impl Display) -> Failure {
        Failure {
            status: 2,
            message: message.to_string(),
        }
    }
}
