//! A judged key as aligned text.

use crate::place::{self, shown};
use crate::report::{Form, Outcome, Report, Row, FORM, INPUT, NOT_READ, REFUSED};

/// The most characters of a form; more are cut. So its line fits in 80 columns, and the carets stand
/// below it.
const MOST: usize = 60;
const CUT: &str = "..";

const UNDECIDED: &str =
    "Nothing is said of these pairs; `judge --explain Full`, or Budget, or a refusal's number, says more.";

pub fn text(report: &Report) -> String {
    let mut lines = vec![columns([
        "line",
        "verdict",
        "contractions",
        "left",
        "right",
        "word",
    ])];
    for (heading, row) in report.rows() {
        if let Some(heading) = heading {
            lines.extend([String::new(), shown(heading)]);
        }
        lines.extend(row_lines(report, row));
    }
    lines.push(String::new());
    lines.push(format!("{}.", report.counts()));
    lines.push(format!("{}.", report.limits()));
    lines.push(format!("{FORM}."));
    let undecided = report.undecided();
    lines.extend(undecided.map(|lines| format!("{lines}. {UNDECIDED}")));
    lines.join("\n")
}

fn columns([line, verdict, contractions, left, right, word]: [&str; 6]) -> String {
    let line =
        format!("{line:>5}  {verdict:<10}  {contractions:>12}  {left:>5}  {right:>5}  {word:>5}");
    line.trim_end().to_string()
}

/// A line below those columns: what it is, and what it says.
fn below(label: &str, said: &str) -> String {
    let line = format!("       {label:<5}  {said}");
    line.trim_end().to_string()
}

fn row_lines(report: &Report, row: &Row) -> Vec<String> {
    let line = row.line.to_string();
    let unjudged = |verdict: &str| columns([&line, verdict, "", "", "", ""]);
    let mut details = Vec::new();
    let first = match &row.outcome {
        Outcome::Pressed {
            press,
            form,
            free,
            doubts,
        } => {
            details.extend(form_lines(form));
            details.extend(report.remark(press).map(|remark| below("why", &remark)));
            if !free.is_empty() {
                details.push(below("free", &shown(&free.join(", "))));
            }
            details.extend(doubts.iter().map(|doubt| below("note", &shown(doubt))));
            let [left, right] = press.lengths.map(|length| length.to_string());
            let word = press.position.map(|word| word.to_string());
            columns([
                &line,
                press.verdict.name(),
                &press.contractions.to_string(),
                &left,
                &right,
                &word.unwrap_or_default(),
            ])
        }
        Outcome::Refused { number, reason, .. } => {
            details.push(below("why", reason));
            unjudged(&format!("{REFUSED} {number}"))
        }
        Outcome::Input { reason } => {
            details.push(below("why", reason));
            unjudged(INPUT)
        }
        Outcome::Broken { column, reason } => {
            details.push(below("why", &format!("column {column}: {reason}")));
            unjudged(NOT_READ)
        }
    };
    let mut lines = vec![first];
    if !row.comment.is_empty() {
        lines.push(below("--", &shown(&row.comment)));
    }
    lines.push(below("pair", &shown(&row.text)));
    lines.extend(details);
    lines
}

/// The form, with whose it is, and below its mark carets.
fn form_lines(form: &Form) -> Vec<String> {
    let excerpt = form.excerpt(MOST);
    let [start, end] = excerpt.is_cut.map(|is_cut| if is_cut { CUT } else { "" });
    let text = [start, excerpt.before, excerpt.marked, excerpt.after, end].concat();
    let mut lines = vec![below(&form.whose, &shown(&text))];
    if form.mark.is_some() {
        let space = " ".repeat(start.len() + place::columns(excerpt.before));
        let carets = "^".repeat(place::columns(excerpt.marked).max(1));
        lines.push(below("", &format!("{space}{carets}")));
    }
    lines
}
