//! The numbers for refused calls.

use std::fmt;

/// Why a call is refused; the discriminant is the number that is returned.
#[derive(Clone, Copy, Debug, PartialEq, Eq)]
pub enum Refusal {
    /// The table's length does not fit its count of records.
    TableLength = 1,
    /// The header's form, root or last word is wrong.
    Header = 2,
    /// A kind is unknown or a value is outside its range.
    Value = 3,
    /// A link rule is broken.
    Link = 4,
    /// The children of a record are wrong in number, kind or order of tags.
    Structure = 5,
    /// A free number is too large.
    FreeNumber = 6,
    /// A workspace or scratch has a wrong length.
    Workspace = 7,
    /// The term that is brought in is longer than its workspace.
    TooLong = 8,
    /// The budget is too large, alone or with what was spent before.
    Budget = 9,
    /// The given words are not one whole term.
    NotATerm = 10,
    /// The line is outside the grammar, or its length is wrong.
    Line = 11,
    /// The bits of an encoding end early, are left over or break the padding.
    Bits = 12,
    /// The term is not closed, or has a word of another kind than encodings have.
    NoEncoding = 13,
}

impl Refusal {
    /// The number of this refusal in the rules.
    pub fn number(self) -> u32 {
        self as u32
    }
}

impl fmt::Display for Refusal {
    fn fmt(&self, f: &mut fmt::Formatter<'_>) -> fmt::Result {
        write!(f, "{}", self.number())
    }
}
