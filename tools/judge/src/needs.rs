//! The least budget and the least workspace with which the program decides a pair, found by running
//! it. What decides a pair still does so with more of either: "What stays" in docs/RULES.md.

use std::fmt;

use crate::failure::Failure;
use crate::verdict::Limits;
use unit::limits::{MAX_BUDGET, WORKSPACE};

/// The largest limits, with which the search begins.
pub const LARGEST: Limits = Limits {
    budget: MAX_BUDGET,
    words: MOST_WORDS,
};

const LEAST_WORDS: u32 = *WORKSPACE.start() as u32;
const MOST_WORDS: u32 = *WORKSPACE.end() as u32;

/// The line for workspaces that one of the first terms does not fit.
const TOO_LONG: &str = "Refused 8";

/// Gives the program's line for the pair with a budget and so many words in each workspace.
type Run<'a> = dyn FnMut(u32, u32) -> Result<String, Failure> + 'a;

#[derive(Debug, PartialEq, Eq)]
pub enum Needs {
    /// The least that gives this line, which is Same or Different.
    Decided {
        line: String,
        budget: u32,
        words: u32,
    },
    /// Budget or Full with the largest limits.
    None(String),
    /// No verdict at all: the pair is refused.
    NotJudged(String),
}

impl Needs {
    /// The program's line with the largest limits.
    pub fn line(&self) -> &str {
        match self {
            Needs::Decided { line, .. } | Needs::None(line) | Needs::NotJudged(line) => line,
        }
    }
}

impl fmt::Display for Needs {
    fn fmt(&self, f: &mut fmt::Formatter) -> fmt::Result {
        match self {
            Needs::Decided {
                line,
                budget,
                words,
            } => {
                let contractions = match budget {
                    1 => "contraction",
                    _ => "contractions",
                };
                let smallest = match *words {
                    LEAST_WORDS => ", the smallest that there is",
                    _ => "",
                };
                write!(
                    f,
                    "{line}\nleast budget: {budget} {contractions}\n\
                     least workspace: {words} words{smallest}"
                )
            }
            Needs::None(line) => write!(
                f,
                "no budget and workspace within the limits ({MAX_BUDGET} contractions, {MOST_WORDS} \
                 words) decide it: {line}\nThis says nothing of the pair, least of all that it is \
                 Different: its terms may be convertible or not."
            ),
            Needs::NotJudged(line) => write!(f, "{line}"),
        }
    }
}

/// What the pair needs that `run` asks the program about.
pub fn needs(run: &mut Run) -> Result<Needs, Failure> {
    let line = run(LARGEST.budget, LARGEST.words)?;
    let fields: Vec<&str> = line.split(' ').collect();
    let spent = match fields[..] {
        ["Same", spent, _, _] | ["Different", spent, _, _, _] => spent.parse().ok(),
        ["Budget" | "Full", _, _, _] => return Ok(Needs::None(line)),
        ["Refused", _] | ["Input"] => return Ok(Needs::NotJudged(line)),
        _ => None,
    };
    let spent = spent.filter(|spent| *spent <= MAX_BUDGET);
    let budget = spent.ok_or_else(|| {
        Failure::program(format!("the program's line is none of its lines: `{line}`"))
    })?;
    let mut search = Search { run, line: &line };
    search.confirm_budget(budget)?;
    let words = search.words()?;
    search.expect(budget, words, |found| found == line)?;
    Ok(Needs::Decided {
        line,
        budget,
        words,
    })
}

struct Search<'a, 'r> {
    run: &'a mut Run<'r>,
    /// The line with the largest limits.
    line: &'a str,
}

impl Search<'_, '_> {
    /// The budget of as many contractions as were made decides the pair, and one less does not.
    fn confirm_budget(&mut self, budget: u32) -> Result<(), Failure> {
        let decided = self.line;
        self.expect(budget, MOST_WORDS, |line| line == decided)?;
        if let Some(less) = budget.checked_sub(1) {
            self.expect(less, MOST_WORDS, |line| line.starts_with("Budget "))?;
        }
        Ok(())
    }

    /// The least workspace, by halving what lies between one that does not decide the pair and one
    /// that does.
    fn words(&mut self) -> Result<u32, Failure> {
        let decided = self.line;
        let (mut below, mut least) = (LEAST_WORDS - 1, MOST_WORDS);
        while least - below > 1 {
            let middle = below.midpoint(least);
            let line = self.expect(MAX_BUDGET, middle, |line| {
                line == decided || line.starts_with("Full ") || line == TOO_LONG
            })?;
            match line == decided {
                true => least = middle,
                false => below = middle,
            }
        }
        Ok(least)
    }

    /// The line within these limits, which must be as the rules have it.
    fn expect(
        &mut self,
        budget: u32,
        words: u32,
        is_right: impl FnOnce(&str) -> bool,
    ) -> Result<String, Failure> {
        let line = (self.run)(budget, words)?;
        if is_right(&line) {
            return Ok(line);
        }
        Err(Failure::program(format!(
            "the program contradicts itself: `{}` with a budget of {MAX_BUDGET} and {MOST_WORDS} \
             words, `{line}` with {budget} and {words}",
            self.line
        )))
    }
}

#[cfg(test)]
mod tests {
    use super::*;

    /// A pair that takes so many contractions and words, the first terms so many of these.
    struct Pair {
        spent: u32,
        words: u32,
        first: u32,
    }

    impl Pair {
        fn line(&self, budget: u32, words: u32) -> String {
            match () {
                _ if words < self.first => "Refused 8".to_string(),
                _ if words < self.words && budget > 0 => "Full 0 1 1".to_string(),
                _ if budget < self.spent => format!("Budget {budget} 1 1"),
                _ => format!("Same {} 1 1", self.spent),
            }
        }
    }

    /// What is found about a program that is a function, and how often it was run.
    fn found(program: impl Fn(u32, u32) -> String) -> (Result<Needs, Failure>, usize) {
        let mut runs = 0;
        let needs = needs(&mut |budget, words| {
            assert!(budget <= MAX_BUDGET && (LEAST_WORDS..=MOST_WORDS).contains(&words));
            runs += 1;
            Ok(program(budget, words))
        });
        (needs, runs)
    }

    #[test]
    fn the_least_budget_and_workspace_are_found() {
        for (spent, words, first) in [
            (0, 1, 1),
            (0, 700, 700),
            (1, 16, 16),
            (2, 17, 1),
            (14, 27, 3),
            (999_999, 2_047, 2_046),
            (1_000_000, 2_048, 2_048),
        ] {
            let pair = Pair {
                spent,
                words,
                first,
            };
            let (needs, runs) = found(|budget, words| pair.line(budget, words));
            let decided = Needs::Decided {
                line: format!("Same {spent} 1 1"),
                budget: spent,
                words: words.max(16),
            };
            assert_eq!(needs, Ok(decided));
            // Of 2,033 workspaces at most eleven are tried.
            assert!(runs <= 1 + 2 + 11 + 1, "{runs}");
        }
    }

    #[test]
    fn what_no_limits_decide_is_none() {
        for line in ["Budget 1000000 9 1", "Full 33 1500 1"] {
            let (needs, runs) = found(|_, _| line.to_string());
            assert_eq!((needs, runs), (Ok(Needs::None(line.to_string())), 1));
        }
    }

    #[test]
    fn what_is_refused_is_handed_back() {
        for line in ["Refused 6", "Input"] {
            let (needs, runs) = found(|_, _| line.to_string());
            assert_eq!((needs, runs), (Ok(Needs::NotJudged(line.to_string())), 1));
        }
    }

    #[test]
    fn a_failure_of_the_program_is_handed_on() {
        let failed = || Failure::program("gone".to_string());
        assert_eq!(needs(&mut |_, _| Err(failed())), Err(failed()));
        let later = &mut |budget, _| match budget {
            MAX_BUDGET => Ok("Same 2 1 1".to_string()),
            _ => Err(failed()),
        };
        assert_eq!(needs(later), Err(failed()));
    }

    /// What is said about a program that is a function.
    fn contradiction(program: impl Fn(u32, u32) -> &'static str) -> String {
        let (needs, _) = found(|budget, words| program(budget, words).to_string());
        let failure = needs.expect_err("the program contradicts itself");
        assert_eq!(failure.status, 3);
        failure.message
    }

    #[test]
    fn a_program_that_contradicts_itself_is_said() {
        let first =
            "the program contradicts itself: `Same 2 1 1` with a budget of 1000000 and 2048 \
                     words, ";
        // Fewer contractions than it counts are enough.
        assert_eq!(
            contradiction(|_, _| "Same 2 1 1"),
            format!("{first}`Same 2 1 1` with 1 and 2048")
        );
        // As many as it counts are too few.
        assert_eq!(
            contradiction(|budget, _| match budget {
                0..=2 => "Budget 1 1 1",
                _ => "Same 2 1 1",
            }),
            format!("{first}`Budget 1 1 1` with 2 and 2048")
        );
        // A spent budget is shown as Different, or a smaller workspace is.
        assert_eq!(
            contradiction(|budget, _| match budget {
                0..=1 => "Different 1 1 1 0",
                _ => "Same 2 1 1",
            }),
            format!("{first}`Different 1 1 1 0` with 1 and 2048")
        );
        assert_eq!(
            contradiction(|budget, words| match (budget, words) {
                (_, 16..=1_031) => "Different 2 1 1 0",
                (0..=1, _) => "Budget 1 1 1",
                _ => "Same 2 1 1",
            }),
            format!("{first}`Different 2 1 1 0` with 1000000 and 1031")
        );
        // A budget that is enough runs out in the least workspace, or the count changes there.
        for line in ["Budget 1 1 1", "Same 1 1 1"] {
            assert_eq!(
                contradiction(|budget, words| match (budget, words) {
                    (0..=1, _) => "Budget 1 1 1",
                    (2, 16) => line,
                    _ => "Same 2 1 1",
                }),
                format!("{first}`{line}` with 2 and 16")
            );
        }
        // Another refusal than that of a term too long.
        assert_eq!(
            contradiction(|budget, words| match (budget, words) {
                (0..=1, _) => "Budget 1 1 1",
                (_, 0..=100) => "Refused 6",
                _ => "Same 2 1 1",
            }),
            format!("{first}`Refused 6` with 1000000 and 78")
        );
    }

    #[test]
    fn a_line_that_the_program_does_not_print_is_said() {
        for line in [
            "same 2 1 1",
            "Same x 1 1",
            "Same 2 1",
            "Different 2 1 1",
            "Same 1000001 1 1",
            "0",
        ] {
            assert_eq!(
                contradiction(|_, _| line),
                format!("the program's line is none of its lines: `{line}`")
            );
        }
    }

    #[test]
    fn the_text_says_what_is_needed() {
        let decided = |budget, words| Needs::Decided {
            line: format!("Same {budget} 1 1"),
            budget,
            words,
        };
        assert_eq!(
            decided(2, 16).to_string(),
            "Same 2 1 1\nleast budget: 2 contractions\n\
             least workspace: 16 words, the smallest that there is"
        );
        assert_eq!(
            decided(1, 17).to_string(),
            "Same 1 1 1\nleast budget: 1 contraction\nleast workspace: 17 words"
        );
        assert_eq!(
            Needs::None("Full 33 1500 1".to_string()).to_string(),
            "no budget and workspace within the limits (1000000 contractions, 2048 words) decide \
             it: Full 33 1500 1\nThis says nothing of the pair, least of all that it is Different: \
             its terms may be convertible or not."
        );
        assert_eq!(
            Needs::NotJudged("Refused 6".to_string()).to_string(),
            "Refused 6"
        );
    }
}
