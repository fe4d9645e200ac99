//! A judged key as comma-separated values: RFC 4180, with a header.

use std::collections::HashMap;

use crate::report::{Outcome, Report, Row, INPUT, NOT_READ, REFUSED};

const HEADER: [&str; 18] = [
    "line",
    "left",
    "right",
    "verdict",
    "contractions",
    "left words",
    "right words",
    "form of",
    "form",
    "differs at word",
    "differs at column of form",
    "free names",
    "side",
    "reason",
    "budget",
    "words",
    "heading",
    "comment",
];

pub fn csv(report: &Report) -> String {
    let header = HEADER.map(str::to_string);
    let rows = report.rows.iter().map(|row| fields(report, row));
    let records = std::iter::once(header).chain(rows);
    let lines: Vec<String> = records.map(|fields| fields.map(quoted).join(",")).collect();
    lines.join("\r\n") + "\r"
}

/// The fields of a row, in the order of the header; those that are not named are empty.
fn fields(report: &Report, row: &Row) -> [String; HEADER.len()] {
    let [left, right] = row.sides.clone();
    let mut fields = vec![
        ("line", row.line.to_string()),
        ("left", left),
        ("right", right),
        ("budget", report.limits.budget.to_string()),
        ("words", report.limits.words.to_string()),
        ("heading", row.heading.to_string()),
        ("comment", row.comment.clone()),
    ];
    match &row.outcome {
        Outcome::Pressed {
            press,
            form,
            free,
            doubts,
        } => {
            let [left, right] = press.lengths;
            let remark = report.remark(press);
            let reasons: Vec<String> = remark.into_iter().chain(doubts.clone()).collect();
            fields.extend([
                ("verdict", press.verdict.name().to_string()),
                ("contractions", press.contractions.to_string()),
                ("left words", left.to_string()),
                ("right words", right.to_string()),
                ("form of", form.whose.clone()),
                ("form", form.text.clone()),
                ("free names", free.join(" ")),
                ("reason", reasons.join("; ")),
            ]);
            if let (Some(word), Some(mark)) = (press.position, &form.mark) {
                let column = form.text[..mark.start].chars().count() + 1;
                fields.push(("differs at word", word.to_string()));
                fields.push(("differs at column of form", column.to_string()));
            }
        }
        Outcome::Refused {
            number,
            side,
            reason,
        } => fields.extend([
            ("verdict", format!("{REFUSED} {number}")),
            (
                "side",
                side.map(|side| side.to_string()).unwrap_or_default(),
            ),
            ("reason", reason.clone()),
        ]),
        Outcome::Input { reason } => {
            fields.extend([("verdict", INPUT.to_string()), ("reason", reason.clone())])
        }
        Outcome::Broken { column, reason } => fields.extend([
            ("verdict", NOT_READ.to_string()),
            ("reason", format!("column {column}: {reason}")),
        ]),
    }
    let fields: HashMap<&str, String> = fields.into_iter().collect();
    HEADER.map(|name| fields.get(name).cloned().unwrap_or_default())
}

fn quoted(field: String) -> String {
    match field.contains([',', '"', '\r', '\n']) {
        true => format!("\"{}\"", field.replace('"', "\"\"")),
        false => field,
    }
}
