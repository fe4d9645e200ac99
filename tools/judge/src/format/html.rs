//! A judged key as one page of HTML that loads nothing else, for a browser and for paper.

use crate::answers::Press;
use crate::place::words;
use crate::report::{Form, Outcome, Report, Row, FORM, INPUT, MEANINGS, NOT_READ, REFUSED};

const STYLE: &str = include_str!("key.css");

/// The most characters of a form, and of that of an undecided pair; more are cut.
const MOST: usize = 600;
const MOST_UNDECIDED: usize = 120;
const CUT: &str = "…";

pub fn html(report: &Report) -> String {
    let title = escaped(&format!("Key: {}", report.name));
    let rows: String = report
        .rows()
        .map(|(heading, row)| table_row(report, heading, row))
        .collect();
    let undecided = report.undecided().map(|lines| format!("<br>\n{lines}."));
    format!(
        "<!DOCTYPE html>
<html lang=\"en\">
<head>
<meta charset=\"utf-8\">
<meta name=\"viewport\" content=\"width=device-width, initial-scale=1\">
<meta http-equiv=\"Content-Security-Policy\" content=\"default-src 'none'; style-src 'unsafe-inline'\">
<title>{title}</title>
<style>
{STYLE}</style>
</head>
<body>
<h1>{title}</h1>
<p>{counts}.<br>
{limits}.{undecided}</p>
<table>
<colgroup><col class=\"line\"><col class=\"term\"><col class=\"term\"><col class=\"verdict\">\
<col class=\"count\"><col class=\"count\"><col></colgroup>
<thead>
<tr><th scope=\"col\" class=\"number\">Line</th><th scope=\"col\">Left</th><th scope=\"col\">Right</th>\
<th scope=\"col\">Verdict</th><th scope=\"col\" class=\"number\">Contrac&shy;tions</th>\
<th scope=\"col\" class=\"number\">Words left, right</th><th scope=\"col\">Shorter form</th></tr>
</thead>
<tbody>
{rows}</tbody>
</table>
{declarations}<h2>How to read it</h2>
<dl>
{meanings}</dl>
<p>{FORM}. In the form of a Different the first word that differs is marked; a form of more than \
{MOST} characters, or {MOST_UNDECIDED} where nothing was found out, is cut.</p>
</body>
</html>",
        counts = report.counts(),
        limits = report.limits(),
        undecided = undecided.unwrap_or_default(),
        declarations = declarations(&report.declarations),
        meanings = meanings(),
    )
}

fn table_row(report: &Report, heading: Option<&str>, row: &Row) -> String {
    let heading = heading.map(|heading| {
        let heading = bidi(&escaped(heading));
        format!("<tr><th colspan=\"7\" scope=\"rowgroup\">{heading}</th></tr>\n")
    });
    let label = match row.comment.as_str() {
        "" => String::new(),
        comment => {
            let label = bidi(&escaped(comment));
            format!("<tr class=\"label\"><td></td><td colspan=\"6\">{label}</td></tr>\n")
        }
    };
    let pair = match row.outcome {
        Outcome::Broken { .. } => format!("<td colspan=\"2\">{}</td>", cell(&row.text)),
        _ => {
            let [left, right] = row.sides.each_ref().map(|side| cell(side));
            format!("<td>{left}</td><td>{right}</td>")
        }
    };
    let judged = match &row.outcome {
        Outcome::Pressed {
            press,
            form,
            free,
            doubts,
        } => pressed(report, press, form, free, doubts),
        Outcome::Refused { number, reason, .. } => unjudged(&format!("{REFUSED} {number}"), reason),
        Outcome::Input { reason } => unjudged(INPUT, reason),
        Outcome::Broken { column, reason } => {
            unjudged(NOT_READ, &format!("column {column}: {reason}"))
        }
    };
    format!(
        "{}{label}<tr><td class=\"number\">{}</td>{pair}{judged}</tr>\n",
        heading.unwrap_or_default(),
        row.line
    )
}

fn pressed(
    report: &Report,
    press: &Press,
    form: &Form,
    free: &[String],
    doubts: &[String],
) -> String {
    let [left, right] = press.lengths;
    let name = press.verdict.name();
    let differs = press
        .position
        .map(|word| format!("; differs at word {word}"));
    let most = match press.verdict.decides() {
        true => MOST,
        false => MOST_UNDECIDED,
    };
    let mut notes = vec![format!("{}{}", form.whose, differs.unwrap_or_default())];
    notes.extend(report.remark(press));
    if !free.is_empty() {
        notes.push(format!("free: {}", cell(&free.join(", "))));
    }
    notes.extend(doubts.iter().map(|doubt| bidi(&escaped(doubt))));
    let notes: String = notes.iter().map(|text| note(text)).collect();
    format!(
        "<td class=\"{name}\">{name}</td><td class=\"number\">{}</td>\
         <td class=\"number\">{left}, {right}</td><td>{}{notes}</td>",
        press.contractions,
        code(&marked(form, most)),
    )
}

fn unjudged(name: &str, reason: &str) -> String {
    let reason = bidi(&escaped(reason));
    format!("<td class=\"none\">{name}</td><td colspan=\"3\">{reason}</td>")
}

fn marked(form: &Form, most: usize) -> String {
    let excerpt = form.excerpt(most);
    let [start, end] = excerpt.is_cut.map(|is_cut| if is_cut { CUT } else { "" });
    let [before, marked, after] = [excerpt.before, excerpt.marked, excerpt.after].map(directed);
    let marked = match form.mark {
        Some(_) => format!("<mark>{marked}</mark>"),
        None => marked,
    };
    format!("{start}{before}{marked}{after}{end}")
}

fn declarations(declarations: &[String]) -> String {
    match declarations {
        [] => String::new(),
        lines => {
            let lines: Vec<String> = lines.iter().map(|line| directed(line)).collect();
            format!("<h2>Declarations</h2>\n<pre>{}</pre>\n", lines.join("\n"))
        }
    }
}

fn meanings() -> String {
    let meaning = |(name, meaning)| format!("<dt>{name}</dt><dd>{meaning}</dd>\n");
    MEANINGS.into_iter().map(meaning).collect()
}

/// A term as it is written.
fn cell(text: &str) -> String {
    code(&directed(text))
}

/// Text whose words each keep their direction, while their order runs from left to right.
fn directed(text: &str) -> String {
    let part = |(word, is_turned): (&str, bool)| match is_turned {
        true => bidi(&escaped(word)),
        false => escaped(word),
    };
    words(text).into_iter().map(part).collect()
}

fn code(text: &str) -> String {
    format!("<code>{text}</code>")
}

fn note(text: &str) -> String {
    format!("<div class=\"note\">{text}</div>")
}

/// Text that may run from right to left, kept apart from what stands beside it.
fn bidi(text: &str) -> String {
    format!("<bdi>{text}</bdi>")
}

fn escaped(text: &str) -> String {
    let mut escaped = String::with_capacity(text.len());
    for character in text.chars() {
        match character {
            '&' => escaped.push_str("&amp;"),
            '<' => escaped.push_str("&lt;"),
            '>' => escaped.push_str("&gt;"),
            '"' => escaped.push_str("&quot;"),
            '\'' => escaped.push_str("&#39;"),
            '\t' => escaped.push('\t'),
            // Not allowed in a page.
            control if control.is_control() => escaped.push('\u{fffd}'),
            other => escaped.push(other),
        }
    }
    escaped
}
