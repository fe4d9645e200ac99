//! Counts of what a run saw, and the least it has to see.

use crate::choice;
use crate::default;
use crate::exchange;
use crate::line::{term_of, Fault};
use crate::part;
use crate::refusal::Refusal;
use crate::replay::{Event, Machine, Operation};
use crate::shape::{self, SHAPES};
use crate::verdict::Outcome;
use std::collections::BTreeMap;
use std::fmt;

/// Verdicts and refusals that the verdict program can give.
const VERDICT_KINDS: &[&str] = &[
    "verdict: {Same|Different|Budget|Full|Input}",
    "verdict: Refused {1|2|3|4|5|6|7|8|9}",
];

/// The parts that numerals and defaults have in the answers of either program.
const KINDS_OF_BOTH: &[&str] = &[
    "load of a {numeral|default}",
    "load refused {3|5} by a numeral",
    "load refused 3 by a {branch of tag 0 that binds|constructor of tag 0}",
    "load refused 5 by the place of a default",
    "press {contracts|Full by} a numeral",
    "press {Same|Different|Budget|Full} with a default taken",
    "press Different with a default and {another count|no constructor}",
];

/// Answers that the calls of a script can give, the other parts that numerals and
/// defaults have in them, what decides showings, imports and exports, and the
/// faults of lines.
const REPLAY_KINDS: &[&str] = &[
    "replay: {load|write|line|import|export|set session|store|print|Script}",
    "replay: load refused {1|2|3|4|5|6|7|8}",
    "replay: press {Same|Different|Budget|Full|refused 7|refused 9|refused 10}",
    "replay: show {Left|Right|refused}",
    "replay: write refused {1|7|10}",
    "replay: line refused {6|7|8|11}",
    "replay: import refused {7|8|12|13}",
    "replay: export refused {7|8|10|13}",
    "replay, press refused 10 by a {numeral|branch of tag 0 that binds|constructor of tag 0}",
    "replay, press refused 10 by the place of a default",
    "replay, {show|write} of a {numeral|default}",
    "replay, {show refused|write refused 10} by a numeral",
    "replay, show {Left|Right}, shorter by {one word|more words}",
    "replay, show {Right at equal lengths|Right of equal words|refused at equal lengths}",
    "replay, line refused 11 by {its length|a byte|a number|a space|a parenthesis|a missing item}",
    "replay, import {of C words|with bytes to spare|of what is exported}",
    "replay, import of a run {of 64 ones or more|up to a multiple of 64 bits}",
    "replay, import refused 12 by {a count past the bytes|an early end|bits left over|the padding}",
    "replay, import refused {8 by one word|13 by one binder}",
    "replay, import refused {7, not 12|12, not 8|12, not 13|8, not 13}",
    "replay, export {into bytes just enough|with bytes to spare|of a run of 64 ones or more}",
    "replay, export refused {8 by one byte|7, not 10|10, not 13|10, not 8|13, not 8}",
    "replay, export refused 13 by a {free variable|constructor|case|numeral}",
];

/// All texts of a pattern, in which `{one|other}` stands for either.
pub fn expanded(pattern: &str) -> Vec<String> {
    let Some((before, rest)) = pattern.split_once('{') else {
        return vec![pattern.to_string()];
    };
    let (choices, rest) = rest.split_once('}').expect("a brace is closed");
    let ends = expanded(rest);
    let with = |choice| ends.iter().map(move |end| format!("{before}{choice}{end}"));
    choices.split('|').flat_map(with).collect()
}

/// Each kind of answer has to be seen once in so many cases.
const CASES_PER_KIND: usize = 40;
/// So has each shape that a press leaves.
const CASES_PER_SHAPE: usize = 60;
/// Runs with fewer cases need half of that, since chance weighs more there.
const FEW_CASES: usize = 3_000;

/// How often each kind of answer was seen.
#[derive(Clone, Debug, Default, PartialEq, Eq)]
pub struct Tally {
    counts: BTreeMap<String, usize>,
}

impl Tally {
    pub fn verdict(&mut self, outcome: &Outcome) {
        let kind = match outcome {
            Outcome::Answered(answer) => answer.verdict.to_string(),
            Outcome::Refused(refusal) => format!("Refused {refusal}"),
            Outcome::Input => "Input".to_string(),
        };
        self.count(format!("verdict: {kind}"), 1);
    }

    pub fn event(&mut self, event: &Event) {
        let kind = match event {
            Event::Load(Ok(_)) => "load".to_string(),
            Event::Load(Err(refusal)) => format!("load refused {refusal}"),
            Event::Press(Ok(answer)) => format!("press {}", answer.verdict),
            Event::Press(Err(refusal)) => format!("press refused {refusal}"),
            Event::Show(Some((side, _))) => format!("show {side:?}"),
            Event::Show(None) => "show refused".to_string(),
            Event::Write(Ok(_)) => "write".to_string(),
            Event::Write(Err(refusal)) => format!("write refused {refusal}"),
            Event::SetSession => "set session".to_string(),
            Event::Store => "store".to_string(),
            Event::Print => "print".to_string(),
            Event::Line(Ok(_)) => "line".to_string(),
            Event::Line(Err(refusal)) => format!("line refused {refusal}"),
            Event::Import(Ok(_)) => "import".to_string(),
            Event::Import(Err(refusal)) => format!("import refused {refusal}"),
            Event::Export(Ok(_)) => "export".to_string(),
            Event::Export(Err(refusal)) => format!("export refused {refusal}"),
            Event::Script => "Script".to_string(),
        };
        self.count(format!("replay: {kind}"), 1);
    }

    /// What a call of the program has to do with numerals, defaults and
    /// positions, what decides a showing, an import or an export, and what is
    /// wrong with a line.
    pub fn call(&mut self, program: &str, before: &Machine, operation: &Operation) {
        for part in part::of_call(before, operation) {
            self.count(format!("{program}, {part}"), 1);
        }
        for role in default::of_call(before, operation) {
            self.count(format!("{program}, {role}"), 1);
        }
        for shape in shape::of_call(before, operation) {
            self.count(format!("{program}, {shape}"), 1);
        }
        if let Some(choice) = choice::of_call(before, operation) {
            self.count(format!("{program}, {choice}"), 1);
        }
        for exchange in exchange::of_call(before, operation) {
            self.count(format!("{program}, {exchange}"), 1);
        }
        if let Some(fault) = fault(before, operation) {
            self.count(format!("{program}, line refused 11 by {fault}"), 1);
        }
    }

    fn count(&mut self, kind: String, times: usize) {
        *self.counts.entry(kind).or_default() += times;
    }

    /// Adds another run's counts.
    pub fn add(&mut self, other: Tally) {
        for (kind, times) in other.counts {
            self.count(kind, times);
        }
    }

    pub fn seen(&self, kind: &str) -> usize {
        self.counts.get(kind).copied().unwrap_or(0)
    }

    /// What a run of `cases` cases saw too seldom, each with the least number
    /// that would do.
    pub fn too_few(&self, cases: usize, halves: Halves) -> Vec<(String, usize)> {
        let least = |cases_per_one: usize| match cases / cases_per_one {
            some if cases < FEW_CASES => some / 2,
            all => all,
        };
        let mut needed = Vec::new();
        for (compared, program, kinds) in [
            (halves.verdict, "verdict", VERDICT_KINDS),
            (halves.replay, "replay", REPLAY_KINDS),
        ] {
            if compared {
                let of_both = KINDS_OF_BOTH.iter().flat_map(|kinds| expanded(kinds));
                let of_both = of_both.map(|kind| format!("{program}, {kind}"));
                let kinds = kinds
                    .iter()
                    .flat_map(|kinds| expanded(kinds))
                    .chain(of_both);
                let shapes = SHAPES.map(|shape| format!("{program}, {shape}"));
                needed.extend(kinds.map(|kind| (kind, least(CASES_PER_KIND))));
                needed.extend(shapes.map(|shape| (shape, least(CASES_PER_SHAPE))));
            }
        }
        needed.retain(|(kind, least)| self.seen(kind) < *least);
        needed
    }
}

/// What is wrong with a line that is refused by 11.
fn fault(before: &Machine, operation: &Operation) -> Option<Fault> {
    let Operation::Line { line, .. } = operation else {
        return None;
    };
    match before.clone().apply(operation, &mut String::new()) {
        Event::Line(Err(Refusal::Line)) => term_of(line).err(),
        _ => None,
    }
}

/// The programs that a run compares.
#[derive(Clone, Copy, Debug, PartialEq, Eq)]
pub struct Halves {
    pub verdict: bool,
    pub replay: bool,
}

impl fmt::Display for Tally {
    fn fmt(&self, f: &mut fmt::Formatter<'_>) -> fmt::Result {
        for (kind, times) in &self.counts {
            writeln!(f, "{times:8} {kind}")?;
        }
        Ok(())
    }
}
