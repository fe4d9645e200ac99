//! The verdict program as a function from input bytes to its line.

use crate::input::{workspace, Words};
use crate::press::{press, Answer, Session, Side, Verdict};
use crate::refusal::Refusal;
use crate::replay::{Event, Machine, Operation};
use crate::table::load;
use std::fmt;

/// What the program finds about its input.
#[derive(Clone, Copy, Debug, PartialEq, Eq)]
pub enum Outcome {
    /// The bytes are not laid out as they should be.
    Input,
    Refused(Refusal),
    Answered(Answer),
}

/// The line that the program prints, its end included; the position is shown
/// with Different only.
impl fmt::Display for Outcome {
    fn fmt(&self, f: &mut fmt::Formatter<'_>) -> fmt::Result {
        match self {
            Outcome::Input => writeln!(f, "Input"),
            Outcome::Refused(refusal) => writeln!(f, "Refused {refusal}"),
            Outcome::Answered(answer) => match answer.verdict {
                Verdict::Different => writeln!(f, "{answer} {}", answer.position),
                _ => writeln!(f, "{answer}"),
            },
        }
    }
}

/// The outcome for everything that stands on the standard input.
pub fn outcome(input: &[u8]) -> Outcome {
    match Request::read(input) {
        None => Outcome::Input,
        Some(request) => match request.judge() {
            Ok(answer) => Outcome::Answered(answer),
            Err(refusal) => Outcome::Refused(refusal),
        },
    }
}

/// Shows the calls that the program makes on an input, each before it is made.
pub fn watch(input: &[u8], mut watch: impl FnMut(&Machine, &Operation)) {
    let Some(request) = Request::read(input) else {
        return;
    };
    let mut machine = Machine::new(request.capacity, request.capacity);
    let mut lengths = [0; 2];
    let sides = [(Side::Left, request.left), (Side::Right, request.right)];
    for ((side, table), length) in sides.into_iter().zip(&mut lengths) {
        let load = Operation::Load { side, table };
        watch(&machine, &load);
        let Event::Load(Ok(loaded)) = machine.apply(&load, &mut String::new()) else {
            return;
        };
        *length = loaded;
    }
    let press = Operation::Press {
        scratch: machine.left.len(),
        lengths: lengths.into(),
        budget: request.budget,
    };
    watch(&machine, &press);
}

/// The parts of the program's input.
#[derive(Clone, Debug, PartialEq, Eq)]
pub struct Request {
    pub budget: u32,
    pub capacity: u32,
    pub left: Vec<u32>,
    pub right: Vec<u32>,
}

impl Request {
    /// The parts of an input without missing or surplus bytes.
    pub fn read(input: &[u8]) -> Option<Self> {
        let mut words = Words { ahead: input };
        let request = Request {
            budget: words.word()?,
            capacity: words.word()?,
            left: words.table()?,
            right: words.table()?,
        };
        words.ahead.is_empty().then_some(request)
    }

    fn judge(&self) -> Result<Answer, Refusal> {
        let mut left = workspace(self.capacity);
        let mut right = left.clone();
        let mut scratch = left.clone();
        let lengths = (load(&self.left, &mut left)?, load(&self.right, &mut right)?);
        press(
            &mut left,
            &mut right,
            &mut scratch,
            lengths,
            self.budget,
            &mut Session::fresh(),
        )
    }
}
