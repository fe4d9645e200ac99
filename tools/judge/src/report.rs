//! A judged key: what each of its formats prints.

use std::ops::Range;
use std::rc::Rc;

use crate::answers::{Answer, Press, Verdict};
use crate::key::{Content, Line};
use crate::notation::Notation;
use crate::verdict::{Limits, Question};
use unit::characters::is_mark;
use unit::script::Side;
use unit::Printed;

pub struct Report {
    /// Where the key was read from.
    pub name: String,
    pub limits: Limits,
    pub declarations: Vec<String>,
    pub rows: Vec<Row>,
}

/// What came of a line.
pub struct Row {
    pub line: usize,
    /// The heading above it in the file.
    pub heading: Rc<str>,
    /// The line without its comment, and both terms, as they are written.
    pub text: String,
    pub sides: [String; 2],
    pub comment: String,
    pub outcome: Outcome,
}

pub enum Outcome {
    Pressed {
        press: Press,
        form: Form,
        /// The names that are free in the pair, and what is doubtful about them.
        free: Vec<String>,
        doubts: Vec<String>,
    },
    Refused {
        number: u32,
        side: Option<Side>,
        reason: String,
    },
    /// No table holds the terms.
    Input { reason: String },
    /// The line cannot be read.
    Broken { column: usize, reason: String },
}

/// The shorter of the two current terms.
pub struct Form {
    /// `left`, `right`, or `both` where the terms are equal.
    pub whose: String,
    pub text: String,
    /// The part of the text that stands for the first word that differs.
    pub mark: Option<Range<usize>>,
}

impl Row {
    /// The row of a line, with the next answer if it has a pair.
    pub fn new(
        line: Line,
        answers: &mut impl Iterator<Item = Answer>,
        limits: Limits,
        notation: &Notation,
    ) -> Row {
        let text = line.text.trim().to_string();
        let sides = line.sides().map(str::to_string);
        let outcome = match line.content {
            Err(fault) => Outcome::Broken {
                column: fault.column,
                reason: fault.reason,
            },
            Ok(content) => {
                let answer = answers.next().expect("every pair has its answer");
                Outcome::new(content, answer, limits, notation)
            }
        };
        Row {
            line: line.number,
            heading: line.heading,
            text,
            sides,
            comment: line.comment,
            outcome,
        }
    }

    pub fn is_decided(&self) -> bool {
        matches!(&self.outcome, Outcome::Pressed { press, .. } if press.verdict.decides())
    }
}

/// All kinds of outcomes, in the order in which they are counted.
const KINDS: [&str; 7] = [
    "Same",
    "Different",
    "Budget",
    "Full",
    "refused",
    "too long",
    "not read",
];

impl Outcome {
    fn kind(&self) -> &'static str {
        match self {
            Outcome::Pressed { press, .. } => press.verdict.name(),
            Outcome::Refused { .. } => "refused",
            Outcome::Input { .. } => "too long",
            Outcome::Broken { .. } => "not read",
        }
    }

    fn new(content: Content, answer: Answer, limits: Limits, notation: &Notation) -> Outcome {
        let Content { pair, free } = content;
        let question = Question {
            lengths: pair.lengths(),
            limits,
        };
        match answer {
            Answer::Pressed(press, terms) => {
                let (side, term) = &terms[0];
                let form = Form::new(*side, notation.printed(term, &free), &press);
                let doubts = notation.doubts(&free);
                Outcome::Pressed {
                    press,
                    form,
                    free,
                    doubts,
                }
            }
            Answer::Refused { side, number } => Outcome::Refused {
                number,
                side,
                reason: question.refusal(number, side),
            },
            Answer::TooLong => Outcome::Input {
                reason: question.too_long(),
            },
        }
    }
}

impl Form {
    fn new(side: Side, printed: Printed, press: &Press) -> Form {
        let mark = press.position.and_then(|word| printed.spans.get(word));
        Form {
            whose: match press.verdict {
                Verdict::Same => "both".to_string(),
                _ => side.to_string(),
            },
            mark: mark.cloned(),
            text: printed.text,
        }
    }

    /// The text, or so many characters of it where it has more, the start of the mark among them.
    pub fn excerpt(&self, most: usize) -> Excerpt<'_> {
        let text = self.text.as_str();
        let mark = self.mark.clone().unwrap_or(text.len()..text.len());
        let window = match self.mark {
            _ if text.chars().count() <= most => 0..text.len(),
            None => 0..forward(text, 0, most),
            Some(_) => {
                let start = backward(text, mark.start, most / 2);
                start..forward(text, start, most).max(forward(text, mark.start, 1))
            }
        };
        let mark = mark.start.min(window.end)..mark.end.min(window.end);
        Excerpt {
            before: &text[window.start..mark.start],
            marked: &text[mark.clone()],
            after: &text[mark.end..window.end],
            is_cut: [window.start > 0, window.end < text.len()],
        }
    }
}

/// The byte position so many characters further, or the next that cuts no combining mark from its letter.
fn forward(text: &str, from: usize, characters: usize) -> usize {
    let mut rest = text[from..].char_indices().skip(characters);
    let place = rest.find(|(_, character)| !is_mark(*character));
    place.map_or(text.len(), |(place, _)| from + place)
}

/// The byte position so many characters back, or the first before it that cuts no combining mark off.
fn backward(text: &str, from: usize, characters: usize) -> usize {
    let mut rest = text[..from].char_indices().rev().skip(characters);
    let place = rest.find(|(_, character)| !is_mark(*character));
    place.map_or(0, |(place, _)| place)
}

/// Part of a form's text: what stands before the mark, in it and after it. Without a mark all of it
/// stands before.
pub struct Excerpt<'a> {
    pub before: &'a str,
    pub marked: &'a str,
    pub after: &'a str,
    /// Whether something is left out at the start, and at the end.
    pub is_cut: [bool; 2],
}

impl Report {
    pub fn is_decided(&self) -> bool {
        self.rows.iter().all(Row::is_decided)
    }

    /// The rows, each with its heading where it is the first below it.
    pub fn rows(&self) -> impl Iterator<Item = (Option<&str>, &Row)> {
        let mut above = "";
        self.rows.iter().map(move |row| {
            let is_first = *row.heading != *above;
            above = &row.heading;
            (is_first.then_some(above), row)
        })
    }

    /// How many lines came to what: `3 lines: 2 Same, 1 refused`.
    pub fn counts(&self) -> String {
        let count = |kind: &str| {
            let count = self
                .rows
                .iter()
                .filter(|row| row.outcome.kind() == kind)
                .count();
            (count > 0).then(|| format!("{count} {kind}"))
        };
        let counts: Vec<String> = KINDS.into_iter().filter_map(count).collect();
        let lines = match self.rows.len() {
            1 => "1 line".to_string(),
            count => format!("{count} lines"),
        };
        format!("{lines}: {}", counts.join(", "))
    }

    pub fn limits(&self) -> String {
        let Limits { budget, words } = self.limits;
        format!("Limits: {budget} contractions a pair, both sides together; workspaces of {words} words")
    }

    /// What a press says of the limits where it decides nothing.
    pub fn remark(&self, press: &Press) -> Option<String> {
        let Limits { budget, words } = self.limits;
        match press.verdict {
            Verdict::Same | Verdict::Different => None,
            Verdict::Budget => Some(format!(
                "not decided: the next round would pass the budget of {budget} contractions"
            )),
            Verdict::Full => Some(format!(
                "not decided: a next term would be longer than {words} words"
            )),
        }
    }

    /// The lines that were not decided, if any.
    pub fn undecided(&self) -> Option<String> {
        let undecided = self.rows.iter().filter(|row| !row.is_decided());
        let mut ranges: Vec<[usize; 2]> = Vec::new();
        for line in undecided.map(|row| row.line) {
            match ranges.last_mut() {
                Some([_, last]) if *last + 1 == line => *last = line,
                _ => ranges.push([line, line]),
            }
        }
        let range = |&[first, last]: &[usize; 2]| match last - first {
            0 => first.to_string(),
            1 => format!("{first}, {last}"),
            _ => format!("{first} to {last}"),
        };
        let lines: Vec<String> = ranges.iter().map(range).collect();
        match &ranges[..] {
            [] => None,
            [[first, last]] if first == last => Some(format!("Not decided: line {first}")),
            _ => Some(format!("Not decided: lines {}", lines.join(", "))),
        }
    }
}

/// What stands for a line that has no verdict.
pub const REFUSED: &str = "Refused";
pub const INPUT: &str = "Input";
pub const NOT_READ: &str = "Not read";

/// What these and the verdicts say, for a reader of a key.
pub const MEANINGS: [(&str, &str); 7] = [
    (
        "Same",
        "The two terms are convertible: contractions lead from each to one common term.",
    ),
    (
        "Different",
        "The two terms are not convertible: they have distinct normal forms. There is no eta.",
    ),
    (
        "Budget",
        "Nothing was found out: the next round would have passed the budget.",
    ),
    (
        "Full",
        "Nothing was found out: a next term would have been longer than a workspace.",
    ),
    (
        REFUSED,
        "The unit does not take a term or a limit, for the reason of this number. Nothing was found out.",
    ),
    (INPUT, "A term has more than 2048 words. Nothing was found out."),
    (
        NOT_READ,
        "The line is no pair, or uses a name that is declared wrongly or only below. Nothing was found out.",
    ),
];

/// What the form of a row is.
pub const FORM: &str =
    "The form is the shorter of the two terms at the end, the right one if both are equally long";
