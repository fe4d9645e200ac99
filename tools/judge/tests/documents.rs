//! The commands of the documents and of the help, keyed as they stand.

mod common;

use common::keyed;
use std::fs;
use std::path::Path;

const HELP: &str = include_str!("../src/help.txt");

fn document(name: &str) -> String {
    let root = Path::new(env!("CARGO_MANIFEST_DIR")).join("../..");
    fs::read_to_string(root.join(name)).expect("a document")
}

/// The commands of a page with what they print, if the page says it: behind two blanks or more on the
/// same line, or in the block behind the next blank line.
fn examples(page: &str) -> Vec<(String, String)> {
    let lines: Vec<&str> = page.lines().collect();
    let mut found = Vec::new();
    for (place, line) in lines.iter().enumerate() {
        let indent = line.len() - line.trim_start().len();
        let line = line.trim_start();
        if indent < 4 || !line.starts_with("./judge ") {
            continue;
        }
        let (command, printed) = match line.split_once("  ") {
            Some((command, printed)) => (command, printed.trim_start().to_string()),
            None => (line, block(&lines[place + 1..], indent)),
        };
        if !printed.is_empty() {
            found.push((command.to_string(), printed + "\n"));
        }
    }
    found
}

/// The lines of the block behind a blank line, if one comes next, without its indent. Blank lines in it
/// are part of it.
fn block(lines: &[&str], indent: usize) -> String {
    if lines.first().is_some_and(|line| !line.is_empty()) {
        return String::new();
    }
    let space = " ".repeat(indent);
    let rest = lines.iter().skip(1);
    let is_command = |line: &str| line.trim_start().starts_with("./judge ");
    let inside = rest
        .take_while(|line| line.is_empty() || line.starts_with(&space))
        .take_while(|line| !is_command(line));
    let block: Vec<&str> = inside
        .map(|line| line.get(indent..).unwrap_or(""))
        .collect();
    block.join("\n").trim_end().to_string()
}

fn all_are_true(page: &str, least: usize) {
    let examples = examples(page);
    assert!(examples.len() >= least, "{} examples", examples.len());
    for (command, printed) in examples {
        assert_eq!(keyed(&command), printed, "{command}");
    }
}

#[test]
fn the_examiners_page_is_true() {
    all_are_true(&document("docs/EXAMINERS.md"), 35);
}

#[test]
fn the_readme_is_true() {
    all_are_true(&document("README.md"), 2);
}

/// The files of the page stand in it whole, each in a block of its own.
#[test]
fn the_files_of_the_examiners_page_are_those_of_the_repository() {
    let page = document("docs/EXAMINERS.md");
    for (name, indent) in [("docs/course.key", 4), ("docs/week3.key", 7)] {
        let lines: Vec<String> = document(name)
            .lines()
            .map(|line| {
                format!("{}{line}", " ".repeat(indent))
                    .trim_end()
                    .to_string()
            })
            .collect();
        let whole = format!("\n\n{}\n\n", lines.join("\n"));
        assert!(page.contains(&whole), "{name}");
    }
}

#[test]
fn the_help_is_true() {
    let examples = HELP.split("\nExamples\n").nth(1).expect("examples");
    let examples: Vec<(&str, &str)> = examples
        .lines()
        .filter_map(|line| line.trim_start().split_once("  "))
        .collect();
    assert!(examples.len() > 8, "{}", examples.len());
    for (command, printed) in examples {
        let printed = format!("{}\n", printed.trim_start());
        assert_eq!(keyed(&format!("./{command}")), printed, "{command}");
    }
}
