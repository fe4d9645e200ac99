//! What the forms that a press leaves have to do with each other, as far as it
//! tells wrong positions from the right one.

use crate::position::position;
use crate::press::{term_in, Answer, Verdict};
use crate::replay::{Event, Machine, Operation};
use std::fmt;

/// How two forms are related at the end of a press.
#[derive(Clone, Copy, Debug, PartialEq, Eq)]
pub enum Shape {
    /// Different, but not at the first word.
    Behind,
    /// Different behind at least [`MANY`] equal words.
    Far,
    /// Different at the last word of the shorter form, behind equal words.
    LastWord,
    /// Different behind equal words, in forms of one length.
    EqualLengths,
    /// Different behind equal words, in forms of two lengths.
    UnequalLengths,
    /// Different at another word than the terms before the press.
    Moved,
    /// Different at more than one word that both forms have.
    Several,
    /// Budget with forms whose first words are equal.
    Budget,
    /// Full with forms whose first words are equal.
    Full,
}

pub const SHAPES: [Shape; 9] = [
    Shape::Behind,
    Shape::Far,
    Shape::LastWord,
    Shape::EqualLengths,
    Shape::UnequalLengths,
    Shape::Moved,
    Shape::Several,
    Shape::Budget,
    Shape::Full,
];

/// More equal words than most terms have.
const MANY: u32 = 100;

impl fmt::Display for Shape {
    fn fmt(&self, f: &mut fmt::Formatter<'_>) -> fmt::Result {
        match self {
            Shape::Behind => write!(f, "press Different behind equal words"),
            Shape::Far => write!(f, "press Different behind {MANY} equal words"),
            Shape::LastWord => write!(f, "press Different at the shorter's last word"),
            Shape::EqualLengths => write!(f, "press Different at equal lengths"),
            Shape::UnequalLengths => write!(f, "press Different at unequal lengths"),
            Shape::Moved => write!(f, "press Different elsewhere than before"),
            Shape::Several => write!(f, "press Different at several words"),
            Shape::Budget => write!(f, "press Budget behind equal words"),
            Shape::Full => write!(f, "press Full behind equal words"),
        }
    }
}

/// The shapes that come of one call of a program.
pub fn of_call(before: &Machine, operation: &Operation) -> Vec<Shape> {
    let Operation::Press { lengths, .. } = operation else {
        return Vec::new();
    };
    let mut after = before.clone();
    let Event::Press(Ok(answer)) = after.apply(operation, &mut String::new()) else {
        return Vec::new();
    };
    let Answer { left, right, .. } = answer;
    let first = shared(before, *lengths);
    let last = shared(&after, (left, right));
    let ends = |verdict| answer.verdict == verdict;
    let different = ends(Verdict::Different);
    let behind = different && last > 0;
    let shapes = [
        (behind, Shape::Behind),
        (behind && last >= MANY, Shape::Far),
        (behind && last + 1 == left.min(right), Shape::LastWord),
        (behind && left == right, Shape::EqualLengths),
        (behind && left != right, Shape::UnequalLengths),
        (different && last != first, Shape::Moved),
        (different && several(&after, answer), Shape::Several),
        (ends(Verdict::Budget) && last > 0, Shape::Budget),
        (ends(Verdict::Full) && last > 0, Shape::Full),
    ];
    let shapes = shapes.into_iter().filter(|(met, _)| *met);
    shapes.map(|(_, shape)| shape).collect()
}

/// The equal words before the first difference; 0 if there is no difference.
fn shared(machine: &Machine, lengths: (u32, u32)) -> u32 {
    let left = term_in(&machine.left, lengths.0);
    let right = term_in(&machine.right, lengths.1);
    let found = left.and_then(|left| right.map(|right| position(&left, &right)));
    found.ok().flatten().map_or(0, |words| words as u32)
}

/// Whether the forms differ at two words at least, both within the shorter.
fn several(after: &Machine, answer: Answer) -> bool {
    let shorter = answer.left.min(answer.right) as usize;
    let pairs = after.left.iter().zip(&after.right).take(shorter);
    pairs.filter(|(one, other)| one != other).count() > 1
}
