//! What decides which form is shown, as far as it tells wrong choices from the
//! right one.

use crate::part::made;
use crate::press::Side;
use crate::replay::{Event, Machine, Operation};
use std::fmt;

/// How the two forms are related of which one is shown, and its side.
#[derive(Clone, Copy, Debug, PartialEq, Eq)]
pub enum Choice {
    /// It is one word shorter than the other.
    OneWord(Side),
    /// It is shorter by more words.
    MoreWords(Side),
    /// Both have the same length, but not the same words.
    EqualLengths(Side),
    /// Both have the same words.
    EqualWords(Side),
    /// Showing is refused at equal lengths other than 0.
    Refused,
}

impl fmt::Display for Choice {
    fn fmt(&self, f: &mut fmt::Formatter<'_>) -> fmt::Result {
        match self {
            Choice::OneWord(side) => write!(f, "show {side:?}, shorter by one word"),
            Choice::MoreWords(side) => write!(f, "show {side:?}, shorter by more words"),
            Choice::EqualLengths(side) => write!(f, "show {side:?} at equal lengths"),
            Choice::EqualWords(side) => write!(f, "show {side:?} of equal words"),
            Choice::Refused => write!(f, "show refused at equal lengths"),
        }
    }
}

/// What decides one call of a script, if it is a showing.
pub fn of_call(before: &Machine, operation: &Operation) -> Option<Choice> {
    let Operation::Show { lengths } = operation else {
        return None;
    };
    let (left, right) = (lengths.0 as usize, lengths.1 as usize);
    match made(before, operation) {
        Event::Show(Some((side, _))) => Some(match left.abs_diff(right) {
            0 if before.left[..left] == before.right[..right] => Choice::EqualWords(side),
            0 => Choice::EqualLengths(side),
            1 => Choice::OneWord(side),
            _ => Choice::MoreWords(side),
        }),
        _ => (left == right && left > 0).then_some(Choice::Refused),
    }
}
