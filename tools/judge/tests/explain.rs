//! The examples of the explanations, keyed as they stand.

mod common;

use common::{judge, keyed, program};
use std::env;

const TEXTS: &str = include_str!("../src/explain.txt");
const README: &str = include_str!("../../../README.md");
const VECTORS: &str = include_str!("../../../crates/vectors/stdin");

/// The commands, each with what it prints.
fn examples() -> Vec<(&'static str, &'static str)> {
    let lines: Vec<&str> = TEXTS.lines().collect();
    let example = |pair: &[&'static str]| {
        let printed = pair[1].strip_prefix("        ")?;
        let command = pair[0].strip_prefix("    ");
        Some((command.expect("a command is above"), printed))
    };
    lines.windows(2).filter_map(example).collect()
}

#[test]
fn judge_prints_what_the_texts_promise() {
    let all = examples().into_iter();
    let examples: Vec<_> = all.filter(|(text, _)| text.contains("./judge ")).collect();
    assert!(examples.len() > 20, "{}", examples.len());
    for (command, line) in examples {
        assert_eq!(keyed(command), format!("{line}\n"), "{command}");
    }
}

/// The vectors' own program, which has no reference in its place.
#[test]
fn vectors_print_what_the_texts_promise() {
    if env::var_os("UNIT_PROGRAMS").is_none() {
        println!("left out: UNIT_PROGRAMS names no folder of built programs");
        return;
    }
    let vectors = program("vectors");
    for (command, line) in examples() {
        if let Some(echo) = command.strip_suffix(" | target/bin/vectors") {
            let command = format!("{echo} | '{}'", vectors.display());
            assert_eq!(keyed(&command), format!("{line}\n"), "{command}");
        }
    }
}

#[test]
fn every_vector_is_one_that_is_tested_or_in_the_readme() {
    let mut numbers = Vec::new();
    for (command, _) in examples() {
        let Some(vector) = command.strip_prefix("echo '") else {
            continue;
        };
        let vector = vector.strip_suffix("' | target/bin/vectors");
        let vector = vector.expect("a vector for the program");
        let is_tested = VECTORS.lines().any(|line| line == vector);
        assert!(
            is_tested || README.contains(&format!("`{vector}`")),
            "{vector}"
        );
        numbers.push(vector.rsplit(' ').next().expect("a number"));
    }
    assert_eq!(numbers, ["1", "2", "4", "10", "11", "12", "13"]);
}

#[test]
fn a_text_is_printed_and_nothing_is_run() {
    let answer = judge(&["--explain", "full"]);
    let text = TEXTS.split("== Full\n").nth(1).expect("a text");
    let text = text.split("\n\n== ").next().expect("its end");
    assert_eq!((answer.status, answer.output), (0, format!("{text}\n")));
    let answer = judge(&["--explain", "14"]);
    assert_eq!((answer.status, answer.output.as_str()), (2, ""));
    assert_eq!(
        answer.message,
        "judge: --explain needs one of Same, Different, Budget, Full, Input, 1, 2, 3, 4, 5, 6, 7, 8, 9, \
         10, 11, 12, 13, found `14`\nSee judge --help.\n"
    );
}
