//! What is measured of a case: all programs on the same inputs.

use std::path::{Path, PathBuf};

use crate::cases::Case;
use crate::encodings::Exchangers;
use crate::lines::Readers;
use crate::probe::{Probe, Stack};
use crate::run::{instructions, lines_of, stack_kib, InputFile};
use crate::times::{times, Estimate};

/// The unit's program and its peers, in this order everywhere.
pub const NAMES: [&str; 3] = ["verdict", "flat", "graph"];

/// Something of each program.
pub type Each<T> = [T; NAMES.len()];

pub type Programs = Each<PathBuf>;

/// Instructions and stack are measured over no more contractions than this.
pub const COUNTED: u32 = 10_000;

/// What the cases are measured with.
pub struct Bench {
    pub programs: Programs,
    pub readers: Readers,
    pub exchangers: Exchangers,
    pub probe: Probe,
    /// Times are taken too.
    pub is_timed: bool,
}

/// A case measured.
pub struct Row {
    pub name: String,
    pub line: String,
    /// The time of the press alone, where it stands out from what other work on the machine adds.
    pub times: Option<Each<Option<Estimate>>>,
    /// Instructions of the press alone for each contraction, or for the press if there is none.
    pub instructions: Each<f64>,
    /// The machine stack of the unit's calls.
    pub stack: Stack,
    /// The smallest stack limit that each whole program runs under.
    pub limit_kib: Each<Option<u32>>,
}

impl Bench {
    /// Measures a case. It is an error if a program prints another line than it must.
    pub fn row(&self, case: &Case) -> Result<Row, String> {
        let counted = Counted::new(case, &self.programs)?;
        let times = self.is_timed.then(|| times(case, &self.programs));
        Ok(Row {
            name: case.name.clone(),
            line: case.line.clone(),
            times: times.transpose()?,
            instructions: self.instructions(&counted)?,
            stack: self.probe.measure(case, counted.budget, &counted.line)?,
            limit_kib: self
                .programs
                .each_ref()
                .map(|program| stack_kib(program, &counted.input, &counted.line)),
        })
    }

    /// The instructions of each contraction, without what a press makes before the first.
    pub fn marginal(&self, case: &Case) -> Result<Each<f64>, String> {
        let counted = Counted {
            without: input_file("counted-none", &case.input(0))?,
            ..Counted::new(case, &self.programs)?
        };
        self.instructions(&counted)
    }

    fn instructions(&self, counted: &Counted) -> Result<Each<f64>, String> {
        let mut each = [0.0; NAMES.len()];
        for (program, count) in self.programs.iter().zip(&mut each) {
            *count = counted.instructions(program)?;
        }
        Ok(each)
    }
}

/// The contractions that a line tells of.
pub fn spent(line: &str) -> u32 {
    let spent = line.split(' ').nth(1).and_then(|field| field.parse().ok());
    spent.unwrap_or(0)
}

pub(crate) fn input_file(name: &str, bytes: &[u8]) -> Result<InputFile, String> {
    InputFile::new(name, bytes).map_err(|error| format!("the input cannot be written: {error}"))
}

/// The seconds of a run that must print the lines.
pub(crate) fn checked(program: &Path, input: &InputFile, lines: &str) -> Result<f64, String> {
    match lines_of(program, input)? {
        (printed, time) if printed == lines => Ok(time.as_secs_f64()),
        (printed, _) => Err(format!(
            "{} printed `{printed}` instead of `{lines}`",
            program.display()
        )),
    }
}

/// A case with at most `COUNTED` contractions, on which the programs agree.
struct Counted {
    budget: u32,
    input: InputFile,
    /// The input of a run whose instructions are not counted.
    without: InputFile,
    line: String,
}

impl Counted {
    fn new(case: &Case, programs: &Programs) -> Result<Counted, String> {
        let budget = case.budget.min(COUNTED);
        let input = input_file("counted", &case.input(budget))?;
        let (line, _) = lines_of(&programs[1], &input)?;
        for program in programs {
            checked(program, &input, &line)?;
        }
        Ok(Counted {
            budget,
            input,
            without: input_file("counted-refused", &case.refused())?,
            line,
        })
    }

    fn instructions(&self, program: &Path) -> Result<f64, String> {
        let run = instructions(program, &self.input)?;
        let without = instructions(program, &self.without)?;
        Ok(each_contraction(run, without, &self.line))
    }
}

/// What one run has more than another, for each contraction of its line or, without one, for the
/// press.
fn each_contraction(run: u64, without: u64, line: &str) -> f64 {
    (run as f64 - without as f64) / f64::from(spent(line).max(1))
}

#[cfg(test)]
mod tests {
    use super::*;

    #[test]
    fn spent_is_the_second_field() {
        assert_eq!(spent("Same 2 1 1"), 2);
        assert_eq!(spent("Different 3 5 5 4"), 3);
        assert_eq!(spent("Input"), 0);
    }

    #[test]
    fn instructions_are_those_of_the_press() {
        assert_eq!(each_contraction(1_100, 100, "Budget 10 9 1"), 100.0);
        assert_eq!(each_contraction(1_100, 100, "Different 0 1 1 0"), 1_000.0);
        assert_eq!(each_contraction(100, 150, "Same 2 1 1"), -25.0);
    }

    #[test]
    fn another_line_is_an_error() {
        let shell = Path::new("/bin/sh");
        let input = input_file("checked", b"echo Same 2 1 1").expect("an input");
        assert!(checked(shell, &input, "Same 2 1 1").is_ok());
        assert_eq!(
            checked(shell, &input, "Same 2 1 2").err().as_deref(),
            Some("/bin/sh printed `Same 2 1 1` instead of `Same 2 1 2`")
        );
    }
}
