//! A key file, judged and printed.

use std::fs;
use std::path::Path;

use crate::answers::Pair;
use crate::failure::Failure;
use crate::format::{csv, html, text};
use crate::key;
use crate::notation::Notation;
use crate::options::{Format, Settings, STANDARD_INPUT};
use crate::parallel;
use crate::programs::{Program, REPLAY};
use crate::progress::Progress;
use crate::report::{Report, Row};
use crate::{standard_input, tell};

/// The exit status where a pair was not decided.
const UNDECIDED: u8 = 1;

/// What is printed of a key file, and the exit status. Declarations from other files stand before its own.
pub fn examine(
    file: &str,
    format: Format,
    settings: &Settings,
    mut notation: Notation,
    mut declarations: Vec<String>,
) -> Result<(String, u8), Failure> {
    let (path, bytes) = match file {
        STANDARD_INPUT => ("standard input", standard_input()?),
        path => (path, read(Path::new(path))?),
    };
    let key = key::read(&bytes, path, &mut notation);
    declarations.extend(key.declarations);
    if key.lines.is_empty() {
        return Err(Failure::text(format!(
            "{path} has no pair: a line is LEFT | RIGHT, and `--` starts a comment"
        )));
    }
    for line in &key.lines {
        if let Err(fault) = &line.content {
            tell(&fault.told_on(path, line.number, &line.text));
        }
    }
    let pairs = key.lines.iter().flat_map(|line| &line.content);
    let pairs: Vec<&Pair> = pairs.map(|content| &content.pair).collect();
    let answers = match &pairs[..] {
        [] => Vec::new(),
        pairs => {
            let program = Program::find(REPLAY, settings)?;
            let mut progress = Progress::new(pairs.len());
            let run = |input: &[u8]| program.lines(input);
            parallel::judge(pairs, settings.limits, &run, &mut |count| {
                progress.add(count)
            })?
        }
    };
    let mut answers = answers.into_iter();
    let lines = key.lines.into_iter();
    let rows = lines
        .map(|line| Row::new(line, &mut answers, settings.limits, &notation))
        .collect();
    let report = Report {
        name: file_name(path),
        limits: settings.limits,
        declarations,
        rows,
    };
    let printed = match format {
        Format::Text => text(&report),
        Format::Csv => csv(&report),
        Format::Html => html(&report),
    };
    let status = if report.is_decided() { 0 } else { UNDECIDED };
    Ok((printed, status))
}

fn file_name(path: &str) -> String {
    let name = Path::new(path).file_name();
    name.map_or(path.to_string(), |name| name.to_string_lossy().into_owned())
}

pub fn read(path: &Path) -> Result<Vec<u8>, Failure> {
    fs::read(path)
        .map_err(|error| Failure::text(format!("{} cannot be read: {error}", path.display())))
}
