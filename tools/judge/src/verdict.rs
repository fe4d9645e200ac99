//! What the program's line means for a script, and for a user where no verdict came.

use crate::failure::Failure;
use unit::limits::{MAX_ARGUMENTS, MAX_BRANCHES, MAX_BUDGET, MAX_FREE, TAGS, WORKSPACE};
use unit::script::Side;

/// The exit status that tells of the line, if the user asks for it.
pub fn status(line: &str) -> u8 {
    match line.split(' ').next() {
        Some("Same") => 0,
        Some("Different") => 1,
        Some("Budget") => 4,
        Some("Full") => 5,
        Some("Refused") => 6,
        _ => 7,
    }
}

#[derive(Clone, Copy, Debug, Default, PartialEq, Eq)]
pub struct Limits {
    /// The most contractions to make.
    pub budget: u32,
    /// C, the words in each workspace.
    pub words: u32,
}

/// What the program was asked.
pub struct Question {
    /// The words of both terms.
    pub lengths: [usize; 2],
    pub limits: Limits,
}

impl Question {
    /// Why the line has no verdict, if it has none. Which side a number is about the program tells
    /// itself, by its line for the left term on both sides.
    pub fn reason(
        &self,
        line: &str,
        left_alone: impl FnOnce() -> Result<String, Failure>,
    ) -> Result<Option<String>, Failure> {
        if line == "Input" {
            return Ok(Some(self.too_long()));
        }
        let Some(number) = line.strip_prefix("Refused ") else {
            return Ok(None);
        };
        let number = number.parse().unwrap_or_default();
        if let Some(reason) = self.of_call(number) {
            return Ok(Some(reason));
        }
        let side = match left_alone()? == line {
            true => Side::Left,
            false => Side::Right,
        };
        Ok(Some(self.refusal(number, Some(side))))
    }

    pub fn too_long(&self) -> String {
        let [left, right] = self.lengths;
        format!(
            "a table holds {} words of a term; left has {left}, right {right}",
            WORKSPACE.end(),
        )
    }

    /// What a refusal says, with the side if it is about a term.
    pub fn refusal(&self, number: u32, side: Option<Side>) -> String {
        match (self.of_call(number), side) {
            (Some(reason), _) => reason,
            (None, None) => format!("refusal {number}"),
            (None, Some(side)) => format!("{side} term: {}", self.of_term(number, side)),
        }
    }

    /// What a refusal says of C or the budget.
    fn of_call(&self, number: u32) -> Option<String> {
        match number {
            7 => Some(format!(
                "C, the words in each workspace, is {} and must be {} to {}",
                self.limits.words,
                WORKSPACE.start(),
                WORKSPACE.end()
            )),
            9 => Some(format!(
                "the budget is {} and must be at most {MAX_BUDGET}",
                self.limits.budget
            )),
            _ => None,
        }
    }

    /// What a refusal says of a term.
    fn of_term(&self, number: u32, side: Side) -> String {
        match number {
            3 => format!(
                "a tag is outside {} to {}; only a default, `_:BODY`, has tag 0, and it binds nothing",
                TAGS.start(),
                TAGS.end()
            ),
            5 => format!(
                "more than {MAX_ARGUMENTS} arguments or {MAX_BRANCHES} branches, or branch tags that do not rise; \
                 a default stands first"
            ),
            6 => {
                let names = MAX_FREE + 1;
                format!(
                    "a free number, an index less the binders around it, is above {MAX_FREE} (with names: \
                     more than {names} are free)"
                )
            }
            8 => {
                let words = self.lengths[side as usize];
                format!("{words} words are more than C, which is {}", self.limits.words)
            }
            _ => format!("refusal {number}"),
        }
    }
}
