//! One pair: its line, its final terms, its contractions, and what it needs.

use std::io::{self, BufWriter, Write};

use crate::answers::{answers, Answer, Forms, Pair};
use crate::failure::Failure;
use crate::needs;
use crate::notation::Notation;
use crate::options::{Settings, Terms};
use crate::programs::{Program, REPLAY, VERDICT};
use crate::trace;
use crate::verdict::{status, Limits, Question};
use crate::{given, standard_text, tell, unwritten};
use unit::program::input;
use unit::Term;

/// A pair as it was read.
struct Read {
    left: Term,
    right: Term,
    notation: Notation,
    /// The names that are free in it.
    free: Vec<String>,
}

impl Read {
    fn new(terms: Terms, mut notation: Notation) -> Result<Read, Failure> {
        let is_default = matches!(terms, Terms::Default(..));
        let mut free = Vec::new();
        let mut term = |name: &str, text: &str| {
            let term = notation.term(text, &mut free, 0);
            term.map_err(|fault| Failure::text(fault.told(name, text)))
        };
        let (left_text, right_text) = texts(terms)?;
        let left = term("left term", &left_text)?;
        let right = term("right term", &right_text)?;
        if is_default {
            tell(&format!(
                "the default pair, '{left_text}' and '{right_text}'; `judge -` reads a pair from standard \
                 input"
            ));
        }
        for doubt in notation.doubts(&free) {
            tell(&doubt);
        }
        Ok(Read {
            left,
            right,
            notation,
            free,
        })
    }

    fn question(&self, limits: Limits) -> Question {
        Question {
            lengths: [self.left.length(), self.right.length()],
            limits,
        }
    }

    fn text(&self, term: &Term) -> String {
        self.notation.printed(term, &self.free).text
    }

    /// The program's line for the pair within these limits.
    fn line(&self, program: &Program, limits: Limits) -> Result<String, Failure> {
        ask(program, limits, &self.left, &self.right)
    }

    /// Tells why the program's line has no verdict, if it has none.
    fn tell_reason(&self, line: &str, program: &Program, limits: Limits) -> Result<(), Failure> {
        let left_alone = || ask(program, limits, &self.left, &self.left);
        let reason = self.question(limits).reason(line, left_alone)?;
        if let Some(reason) = reason {
            tell(&reason);
        }
        Ok(())
    }
}

fn ask(program: &Program, limits: Limits, left: &Term, right: &Term) -> Result<String, Failure> {
    program.line(&input(limits.budget, limits.words, left, right))
}

/// The texts of both terms.
fn texts(terms: Terms) -> Result<(String, String), Failure> {
    match terms {
        Terms::Default(left, right) => Ok((left, right)),
        Terms::Given(left, right) => Ok((given(left)?, given(right)?)),
        Terms::Lines => {
            let text = standard_text()?;
            let lines: Vec<&str> = text
                .lines()
                .filter(|line| !line.trim().is_empty())
                .collect();
            match lines[..] {
                [left, right] => Ok((left.to_string(), right.to_string())),
                _ => Err(Failure::text(format!(
                    "standard input must have two lines, a term each; found {}",
                    lines.len()
                ))),
            }
        }
    }
}

/// The exit status: the line decides it if that is asked for.
fn exit_status(line: &str, settings: &Settings) -> u8 {
    match settings.exit_code {
        true => status(line),
        false => 0,
    }
}

/// The program's line.
pub fn judge(
    terms: Terms,
    settings: &Settings,
    notation: Notation,
) -> Result<(String, u8), Failure> {
    let read = Read::new(terms, notation)?;
    let program = Program::find(VERDICT, settings)?;
    let line = read.line(&program, settings.limits)?;
    read.tell_reason(&line, &program, settings.limits)?;
    let status = exit_status(&line, settings);
    Ok((line, status))
}

/// The line, and below it both terms as the last round left them.
pub fn forms(
    terms: Terms,
    settings: &Settings,
    notation: Notation,
) -> Result<(String, u8), Failure> {
    let read = Read::new(terms, notation)?;
    let program = Program::find(REPLAY, settings)?;
    let run = |input: &[u8]| program.lines(input);
    let pair = Pair::new(read.left.clone(), read.right.clone());
    let answers = answers(&[&pair], settings.limits, Forms::Both, &run)?;
    let question = read.question(settings.limits);
    let mut lines = Vec::new();
    for answer in answers {
        match answer {
            Answer::Pressed(press, terms) => {
                lines.push(press.line());
                let term = |(side, term)| format!("{side:<5}  {}", read.text(&term));
                lines.extend(terms.into_iter().map(term));
            }
            Answer::Refused { side, number } => {
                lines.push(format!("Refused {number}"));
                tell(&question.refusal(number, side));
            }
            Answer::TooLong => {
                lines.push("Input".to_string());
                tell(&question.too_long());
            }
        }
    }
    let status = exit_status(&lines[0], settings);
    Ok((lines.join("\n"), status))
}

/// Prints each contraction, worked out beside the unit; then the program's line.
pub fn trace(
    terms: Terms,
    settings: &Settings,
    notation: Notation,
) -> Result<(String, u8), Failure> {
    let read = Read::new(terms, notation)?;
    let program = Program::find(VERDICT, settings)?;
    let line = read.line(&program, settings.limits)?;
    read.tell_reason(&line, &program, settings.limits)?;
    let status = exit_status(&line, settings);
    if line == "Input" || line.starts_with("Refused") {
        return Ok((line, status));
    }
    let mut output = BufWriter::new(io::stdout());
    let show = |term: &Term| read.text(term);
    let Limits { budget, words } = settings.limits;
    let traced = trace::trace(&read.left, &read.right, budget, words, &show, &mut output);
    let traced = traced
        .and_then(|traced| output.flush().map(|()| traced))
        .map_err(unwritten)?;
    if traced != line {
        return Err(Failure::program(format!(
            "the program prints `{line}`, and what was worked out beside it ends in `{traced}`"
        )));
    }
    Ok((format!("the unit's own line: {line}"), status))
}

/// The least budget and workspace that decide the pair.
pub fn needs(
    terms: Terms,
    settings: &Settings,
    notation: Notation,
) -> Result<(String, u8), Failure> {
    let read = Read::new(terms, notation)?;
    let program = Program::find(VERDICT, settings)?;
    let run = &mut |budget, words| read.line(&program, Limits { budget, words });
    let needs = needs::needs(run)?;
    read.tell_reason(needs.line(), &program, needs::LARGEST)?;
    let status = exit_status(needs.line(), settings);
    Ok((needs.to_string(), status))
}
