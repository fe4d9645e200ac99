//! Each contraction of a pair, worked out beside the unit by the reference.

use std::io::{self, Write};
use std::panic;
use std::sync::mpsc::{self, SyncSender};
use std::thread;

use reference::contraction::{redex, step, Redex};
use reference::press::{contractions, round, Answer, Rounds, Verdict};
use reference::verdict::{outcome, Outcome};
use reference::words::{read, words};
use reference::{on_large_stack, LARGE_STACK};
use unit::limits::MAX_BUDGET;
use unit::program::input;
use unit::Term;

const BESIDE: &str =
    "What follows is worked out beside the unit, by tools/reference; it is not the unit's own record.";
const NOT_ACCEPTED: &str = "No round is made: the unit does not accept the pair.";

const SIDES: [&str; 2] = ["left", "right"];
/// In the place of a rule and a position, where a first term stands.
const NONE: &str = "-";
/// The most rows that wait to be written.
const AHEAD: usize = 64;

/// Writes the first terms, each contraction in its round and, after Budget and Full, what the next
/// round needs, with `show` for the terms. Returns the line that the unit must print.
pub fn trace(
    left: &Term,
    right: &Term,
    budget: u32,
    capacity: u32,
    show: &dyn Fn(&Term) -> String,
    output: &mut dyn Write,
) -> io::Result<String> {
    writeln!(output, "{BESIDE}")?;
    if let Some(line) = on_large_stack(|| refusal(left, right, budget, capacity)) {
        writeln!(output, "{NOT_ACCEPTED}")?;
        return Ok(line);
    }
    write_columns(
        output,
        ["round", "side", "rule", "position", "words", "term"],
    )?;
    let first = [left, right].map(|term| term.words().expect("an accepted term has words"));
    let limits = Limits {
        budget,
        capacity: capacity as usize,
    };
    // The reference recurses, and its stack is large; what shows and writes need not be sent there.
    thread::scope(|scope| {
        let (sender, rows) = mpsc::sync_channel(AHEAD);
        let thread = thread::Builder::new().stack_size(LARGE_STACK);
        let rounds = thread.spawn_scoped(scope, move || make_rounds(first, limits, &sender))?;
        for row in rows {
            row.write(show, output)?;
        }
        let end = rounds
            .join()
            .unwrap_or_else(|why| panic::resume_unwind(why));
        let end = end.expect("every row was taken");
        if let Some(needed) = end.needed {
            writeln!(output, "{needed}")?;
        }
        Ok(end.line)
    })
}

/// The line for a pair that the unit does not accept; no round is made to find out.
fn refusal(left: &Term, right: &Term, budget: u32, capacity: u32) -> Option<String> {
    let budget = if budget > MAX_BUDGET { budget } else { 0 };
    match outcome(&input(budget, capacity, left, right)) {
        Outcome::Answered(_) => None,
        refused => Some(line(refused)),
    }
}

fn line(outcome: Outcome) -> String {
    outcome.to_string().trim_end().to_string()
}

#[derive(Clone, Copy)]
struct Limits {
    budget: u32,
    capacity: usize,
}

/// What comes after the last row.
struct End {
    line: String,
    /// What the next round needs, where that is more than there is.
    needed: Option<String>,
}

/// Makes the rounds and sends a row for each first term and each contraction; none if nobody takes
/// them any more.
fn make_rounds(first: [Vec<u32>; 2], limits: Limits, rows: &SyncSender<Row>) -> Option<End> {
    let mut terms = first.map(|words| read(&words).expect("the terms are accepted"));
    for (side, term) in SIDES.into_iter().zip(&terms) {
        let row = Row {
            round: 0,
            side,
            redex: None,
            words: words(term),
        };
        rows.send(row).ok()?;
    }
    let (mut spent, mut number) = (0, 0);
    let verdict = loop {
        let [left, right] = &terms;
        let next = match round(left, right, limits.capacity, limits.budget - spent) {
            Err(verdict) => break verdict,
            Ok(next) => next,
        };
        spent += contractions(&next);
        number += 1;
        for ((side, term), next) in SIDES.into_iter().zip(&mut terms).zip(next) {
            let Some(next) = next else { continue };
            let row = Row {
                round: number,
                side,
                redex: redex(term),
                words: words(&next),
            };
            rows.send(row).ok()?;
            *term = next;
        }
    };
    let [left, right] = terms;
    let end = Rounds {
        verdict,
        spent,
        left,
        right,
    };
    Some(End {
        line: line(Outcome::Answered(answer(&end))),
        needed: needed(&end, limits),
    })
}

fn answer(end: &Rounds) -> Answer {
    Answer {
        verdict: end.verdict,
        spent: end.spent,
        left: end.left.size() as u32,
        right: end.right.size() as u32,
        position: end.position(),
    }
}

fn needed(end: &Rounds, Limits { budget, capacity }: Limits) -> Option<String> {
    let next = [step(&end.left), step(&end.right)];
    match end.verdict {
        Verdict::Budget => {
            let more = contractions(&next);
            let all = end.spent + more;
            Some(format!(
                "The next round makes {more} more, {all} contractions in all; the budget is {budget}."
            ))
        }
        Verdict::Full => {
            let words = next
                .iter()
                .map(|term| term.as_ref().map_or(0, |term| term.size()));
            let sides = SIDES.into_iter().zip(words);
            let long: Vec<String> = sides
                .filter(|(_, words)| *words > capacity)
                .map(|(side, words)| format!("{words} words on the {side}"))
                .collect();
            let long = long.join(" and ");
            Some(format!(
                "The next round needs {long}; C, the words in a workspace, is {capacity}."
            ))
        }
        Verdict::Same | Verdict::Different => None,
    }
}

/// A first term, or what a contraction made of a side's term.
struct Row {
    round: u32,
    side: &'static str,
    redex: Option<Redex>,
    words: Vec<u32>,
}

impl Row {
    fn write(&self, show: &dyn Fn(&Term) -> String, output: &mut dyn Write) -> io::Result<()> {
        let term = Term::from_words(&self.words).expect("a term of a workspace has a text");
        let (rule, position) = match self.redex {
            Some(Redex { position, rule }) => (rule.to_string(), position.to_string()),
            None => (NONE.to_string(), NONE.to_string()),
        };
        let (round, words) = (self.round.to_string(), self.words.len().to_string());
        let columns = [&round, self.side, &rule, &position, &words, &show(&term)];
        write_columns(output, columns)
    }
}

/// The widths hold the largest numbers there are.
fn write_columns(output: &mut dyn Write, columns: [&str; 6]) -> io::Result<()> {
    let [round, side, rule, position, words, term] = columns;
    writeln!(
        output,
        "{round:>7}  {side:5}  {rule:7}  {position:>8}  {words:>5}  {term}"
    )
}

#[cfg(test)]
mod tests {
    use super::*;
    use reference::generate::pairs::trial;
    use reference::random::Random;
    use std::collections::BTreeSet;

    fn term(text: &str) -> Term {
        text.parse().expect("the test's text is a term")
    }

    /// The text of a trace after its first line, and the line that is returned.
    fn traced(left: &str, right: &str, budget: u32, capacity: u32) -> (String, String) {
        let mut output = Vec::new();
        let (left, right) = (term(left), term(right));
        let line = trace(
            &left,
            &right,
            budget,
            capacity,
            &Term::to_string,
            &mut output,
        );
        let text = String::from_utf8(output).expect("text");
        let rest = text.strip_prefix(BESIDE).expect("the first line");
        let rest = rest.strip_prefix('\n').expect("a line");
        (rest.to_string(), line.expect("a vector can be written"))
    }

    fn expected(rows: &[&str], line: &str) -> (String, String) {
        let head = "  round  side   rule     position  words  term";
        let text = [&[head], rows].concat().join("\n");
        (text + "\n", line.to_string())
    }

    #[test]
    fn a_line_for_each_contraction() {
        assert_eq!(
            traced(r"(\\1) 0 1", "0", 1_000, 2_048),
            expected(
                &[
                    r"      0  left   -               -      7  (\\1) 0 1",
                    r"      0  right  -               -      1  0",
                    r"      1  left   beta            1      4  (\1) 1",
                    r"      2  left   beta            0      1  0",
                ],
                "Same 2 1 1"
            )
        );
    }

    #[test]
    fn no_contraction_is_no_line() {
        for (right, line) in [("0", "Same 0 1 1"), ("1", "Different 0 1 1 0")] {
            let (text, found) = traced("0", right, 0, 16);
            assert_eq!((text.lines().count(), found.as_str()), (3, line));
        }
    }

    #[test]
    fn every_rule_is_named_on_both_sides_of_a_round() {
        // The subject's numeral is dropped by the default; the right side is normal after a round.
        assert_eq!(
            traced(r"#1[?#2[5]{1.0:0,2.1:0},?#3[%4]{_:0}]", r"\%0", 9, 16),
            expected(
                &[
                    r"      0  left   -               -     13  #1[?#2[5]{1.0:0,2.1:0},?#3[%4]{_:0}]",
                    r"      0  right  -               -      2  \%0",
                    r"      1  left   case            1      7  #1[5,?#3[%4]{_:0}]",
                    r"      1  right  numeral         1      4  \\\0",
                    r"      2  left   default         2      3  #1[5,0]",
                ],
                "Different 3 3 4 0"
            )
        );
    }

    #[test]
    fn the_terms_are_shown_as_asked() {
        let mut output = Vec::new();
        let show = |term: &Term| format!("<{term}>");
        let line = trace(&term("%0"), &term("1"), 1, 16, &show, &mut output);
        assert_eq!(line.expect("written"), "Different 1 3 1 0");
        let text = String::from_utf8(output).expect("text");
        let ends: Vec<&str> = text.lines().skip(2).map(|line| &line[42..]).collect();
        assert_eq!(ends, ["<%0>", "<1>", r"<\\0>"]);
    }

    #[test]
    fn after_budget_comes_what_the_next_round_makes() {
        let (text, line) = traced(r"(\0 0) (\0 0)", "0", 5, 16);
        assert_eq!(line, "Budget 5 9 1");
        assert!(text
            .ends_with("\nThe next round makes 1 more, 6 contractions in all; the budget is 5.\n"));
        let (text, line) = traced("%0", "%1", 1, 16);
        assert_eq!(line, "Budget 0 1 1");
        assert!(text
            .ends_with("\nThe next round makes 2 more, 2 contractions in all; the budget is 1.\n"));
    }

    #[test]
    fn after_full_comes_how_many_words_the_next_round_needs() {
        let (text, line) = traced(r"(\0 0 0) (\0 0 0)", "%1", 9, 16);
        assert_eq!(line, "Full 0 13 1");
        assert!(text.ends_with(
            "\nThe next round needs 20 words on the left; C, the words in a workspace, is 16.\n"
        ));
        // Numeral n has 2n + 3 words.
        let (text, line) = traced("%31", "%7", 9, 16);
        assert_eq!(line, "Full 0 1 1");
        assert!(text.ends_with(
            "\nThe next round needs 65 words on the left and 17 words on the right; \
             C, the words in a workspace, is 16.\n"
        ));
    }

    #[test]
    fn a_pair_that_is_not_accepted_makes_no_round() {
        let long = r"\".repeat(2_048) + "0";
        let sixteen = format!("#1[0{}]", ",0".repeat(15));
        for (left, budget, capacity, line) in [
            ("#256", 9, 16, "Refused 3"),
            (sixteen.as_str(), 9, 17, "Refused 5"),
            ("256", 9, 16, "Refused 6"),
            ("0", 9, 15, "Refused 7"),
            ("0", 9, u32::MAX, "Refused 7"),
            (r"\\\\\\\\\\\\\\\\0", 9, 16, "Refused 8"),
            ("0", 1_000_001, 16, "Refused 9"),
            (&long, 9, 2_048, "Input"),
        ] {
            let text = format!("{NOT_ACCEPTED}\n");
            assert_eq!(
                traced(left, "0", budget, capacity),
                (text, line.to_string())
            );
        }
    }

    #[test]
    fn a_deep_term_is_traced() {
        // Nested to the left, to the right and under binders, each with a redex at the end.
        let applied = format!(r"(\0) 0{}", " 0".repeat(1_022));
        let nested = format!(r"{}(\0) 0{}", "0 (".repeat(1_022), ")".repeat(1_022));
        let bound = format!(r"{}(\0) 0", r"\".repeat(2_044));
        for (left, position, words) in [
            (applied, 1_022, 2_045),
            (nested, 2_044, 2_045),
            (bound, 2_044, 2_045),
        ] {
            let (text, line) = traced(&left, "0", 1, 2_048);
            assert_eq!(line, format!("Different 1 {words} 1 0"));
            let row = format!("      1  left   beta         {position}   {words}  ");
            assert!(text
                .lines()
                .last()
                .is_some_and(|last| last.starts_with(&row)));
        }
    }

    /// Takes three lines and then none.
    struct Closed(usize);

    impl Write for Closed {
        fn write(&mut self, bytes: &[u8]) -> io::Result<usize> {
            self.0 += bytes.iter().filter(|byte| **byte == b'\n').count();
            match self.0 {
                0..=3 => Ok(bytes.len()),
                _ => Err(io::ErrorKind::BrokenPipe.into()),
            }
        }

        fn flush(&mut self) -> io::Result<()> {
            Ok(())
        }
    }

    #[test]
    fn an_output_that_is_closed_ends_the_rounds() {
        let endless = term(r"(\0 0) (\0 0)");
        let mut output = Closed(0);
        let line = trace(
            &endless,
            &term("0"),
            MAX_BUDGET,
            16,
            &Term::to_string,
            &mut output,
        );
        assert_eq!(line.expect_err("closed").kind(), io::ErrorKind::BrokenPipe);
        assert_eq!(output.0, 4);
    }

    /// Generated pairs, each with its budget and C.
    fn trials() -> Vec<(Term, Term, u32, u32)> {
        let term = |term: &reference::term::Term| Term::from_words(&words(term)).expect("a term");
        let of = |case| {
            let trial = trial(&mut Random::new(17, case), None);
            let [left, right] = [&trial.left, &trial.right].map(term);
            (left, right, trial.budget, trial.capacity as u32)
        };
        on_large_stack(|| (0..200).map(of).collect())
    }

    #[test]
    fn the_line_is_that_of_the_program() {
        let mut verdicts = BTreeSet::new();
        for (left, right, budget, capacity) in trials() {
            let nothing = |_: &Term| String::new();
            let line = trace(&left, &right, budget, capacity, &nothing, &mut io::sink());
            let line = line.expect("nothing is written");
            let input = input(budget, capacity, &left, &right);
            assert_eq!(line, on_large_stack(|| super::line(outcome(&input))));
            verdicts.extend(line.split(' ').next().map(str::to_string));
        }
        assert_eq!(
            Vec::from_iter(verdicts),
            ["Budget", "Different", "Full", "Same"]
        );
    }
}
