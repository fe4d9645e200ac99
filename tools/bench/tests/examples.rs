//! What the README says of pairs and tables, against the peers, the fields that `judge --help` names, and
//! the rows of the benchmark's page.

use bench::cases::{contracting, normal, untouched};
use bench::encodings::growing_encodings;
use bench::lines::growing_lines;
use bench::peers::{bitwise, descent, flat, graph};
use unit::program::input;
use unit::{table, Term};

const README: &str = include_str!("../../../README.md");
const BENCHMARKS: &str = include_str!("../../../docs/BENCHMARKS.md");
const HELP: &str = include_str!("../../judge/src/help.txt");

/// The line that both peers print.
fn printed(input: &[u8]) -> String {
    let line = flat::line(input);
    assert_eq!(graph::line(input), line);
    line
}

/// The line for a command `judge`, which is given its options and two terms.
fn judged(command: &str) -> String {
    let (mut budget, mut c) = (1_000, 2_048);
    let mut terms: Vec<Term> = Vec::new();
    let mut arguments = arguments(command).into_iter();
    while let Some(argument) = arguments.next() {
        let mut number = || arguments.next().and_then(|text| text.parse().ok());
        match argument.as_str() {
            "--budget" => budget = number().expect("a budget"),
            "--words" => c = number().expect("a number of words"),
            text => terms.push(text.parse().expect("a term")),
        }
    }
    assert_eq!(terms.len(), 2, "{command}");
    printed(&input(budget, c, &terms[0], &terms[1]))
}

/// The arguments as a shell takes them apart: at spaces, but not within single quotes.
fn arguments(command: &str) -> Vec<String> {
    let mut arguments = Vec::new();
    for (nth, part) in command.split('\'').enumerate() {
        match nth % 2 {
            0 => arguments.extend(part.split_whitespace().map(str::to_string)),
            _ => arguments.push(part.to_string()),
        }
    }
    arguments
}

/// The line for a left table as it stands, beside the variable 0.
fn loaded(left: &str) -> String {
    let numbers = left.split(',').map(|text| text.trim().parse());
    let left: Vec<u32> = numbers.collect::<Result<_, _>>().expect("a table");
    let right = table(&"0".parse().expect("a term"));
    let mut words = vec![1_000, 2_048];
    for table in [left, right] {
        words.push(table.len() as u32);
        words.extend(table);
    }
    let bytes: Vec<u8> = words.into_iter().flat_map(u32::to_le_bytes).collect();
    printed(&bytes)
}

/// The line for bytes that are read into a workspace of 16 words.
fn read(bytes: &str) -> String {
    refusal(descent::transcript(&script(&[8, 0], bytes)))
}

/// The line for so many bits in bytes that are imported into a workspace of 16 words.
fn imported(encoding: &str) -> String {
    let (count, bytes) = encoding.split_once(" bits of ").expect("a bit count");
    let (bytes, _) = bytes.split_once(", which are ").expect("its bits");
    let count = count.parse().expect("a bit count");
    refusal(bitwise::transcript(&script(&[9, 0, count], bytes)))
}

/// A script with an operation that ends with bytes, for workspaces of 16 words.
fn script(operation: &[u32], bytes: &str) -> Vec<u8> {
    let numbers = bytes.split(',').map(|text| text.trim().parse());
    let bytes: Vec<u32> = numbers.collect::<Result<_, _>>().expect("bytes");
    let words = [&[16, 16], operation, &[bytes.len() as u32], &bytes[..]].concat();
    words.into_iter().flat_map(u32::to_le_bytes).collect()
}

/// The refusal of a script's only line.
fn refusal(line: String) -> String {
    line.replace("refused", "Refused").trim_end().to_string()
}

/// The cells of each row of the README's table below a heading, without its titles.
fn rows(heading: &str) -> Vec<Vec<&'static str>> {
    let heading = format!("\n## {heading}\n");
    let (_, below) = README.split_once(&heading).expect("the heading");
    let lines = below.lines().skip_while(|line| !line.starts_with('|'));
    let lines = lines.take_while(|line| line.starts_with('|')).skip(2);
    let cells = |line: &'static str| line.trim_matches(['|', ' ']).split(" | ").collect();
    lines.map(cells).collect()
}

/// What stands between backquotes.
fn code(text: &str) -> Vec<&str> {
    text.split('`').skip(1).step_by(2).collect()
}

#[test]
fn the_four_verdicts() {
    let rows = rows("The four verdicts");
    assert_eq!(rows.len(), 4);
    for cells in rows {
        let (pair, line) = (code(cells[0]), code(cells[1]));
        let options = pair.get(2).unwrap_or(&"");
        let command = format!("{options} '{}' '{}'", pair[0], pair[1]);
        assert_eq!([judged(&command)], *line, "{command}");
    }
}

#[test]
fn the_refusals() {
    let rows = rows("The refusals");
    assert_eq!(rows.len(), 13);
    let mut tried = Vec::new();
    for cells in rows {
        let (number, text) = (cells[0], cells[1]);
        let line = if let Some((_, table)) = text.split_once("`load` of ") {
            loaded(table)
        } else if let Some((_, bytes)) = text.split_once("`read_line` of ") {
            read(bytes)
        } else if let Some((_, encoding)) = text.split_once("`import` of the first ") {
            imported(encoding)
        } else if let Some(command) = code(text).first() {
            judged(command.strip_prefix("./judge ").expect("a command"))
        } else {
            continue;
        };
        assert_eq!(line, format!("Refused {number}"), "{text}");
        tried.push(number);
    }
    let all_but_10 = (1..=13).filter(|number| *number != 10);
    assert!(tried
        .into_iter()
        .eq(all_but_10.map(|number| number.to_string())));
}

#[test]
fn the_first_command() {
    let (_, text) = README.split_once("\n    ./judge ").expect("a command");
    let command = text.lines().next().expect("a line");
    let (_, text) = text.split_once("It prints ").expect("what it prints");
    assert_eq!(judged(command), code(text)[0]);
}

#[test]
fn the_lines_of_the_help_have_the_fields_of_those_printed() {
    let (_, text) = HELP.split_once("\nLines printed").expect("the lines");
    for cells in rows("The four verdicts") {
        let fields: Vec<&str> = code(cells[1])[0].split(' ').collect();
        let mut lines = text.lines().map(str::trim_start);
        let line = lines.find(|line| line.starts_with(fields[0]));
        let (named, _) = line
            .and_then(|line| line.split_once("  "))
            .expect("its line");
        assert_eq!(named.split(' ').count(), fields.len(), "{named}");
    }
}

/// The rows of the benchmark's page below a heading that have a part.
fn measured(heading: &str, part: &str) -> Vec<&'static str> {
    let heading = format!("\n## {heading}\n");
    let (_, text) = BENCHMARKS.split_once(&heading).expect("the heading");
    let (text, _) = text.split_once("\n## ").expect("the next heading");
    text.lines().filter(|line| line.contains(part)).collect()
}

#[test]
fn the_rows_of_the_benchmark_are_cases() {
    let cases = [contracting(), untouched(), normal()].into_iter().flatten();
    let cases: Vec<_> = cases
        .map(|case| format!("| {} | `{}` |", case.name, case.line))
        .collect();
    let rows = measured("Instructions", " | `");
    assert!(rows.len() >= 25);
    for row in rows {
        let is_case = cases.iter().any(|case| row.starts_with(case));
        assert!(is_case, "{row}");
    }
}

/// The rows of the only table below a heading start with these cells.
fn assert_measured(heading: &str, cells: Vec<String>) {
    let rows = measured(heading, "| ").into_iter().skip(1);
    let rows: Vec<_> = rows.map(|row| row.replace(',', "")).collect();
    assert_eq!(rows.len(), cells.len());
    for (row, cells) in rows.iter().zip(cells) {
        let start = format!("| {} |", cells.replace(',', ""));
        assert!(row.starts_with(&start), "{row}");
    }
}

#[test]
fn the_rows_of_reading_are_lines() {
    let cells = growing_lines().into_iter().map(|line| {
        let (bytes, words) = (line.text.len(), line.length());
        format!("{} | {bytes} | {words}", line.shape)
    });
    assert_measured("Reading a line", cells.collect());
}

#[test]
fn the_rows_of_importing_and_exporting_are_encodings() {
    let cells = growing_encodings().into_iter().map(|encoding| {
        let (bytes, words) = (encoding.bytes.len(), encoding.words.len());
        format!("{} | {} | {bytes} | {words}", encoding.shape, encoding.bits)
    });
    assert_measured("Importing and exporting", cells.collect());
}
