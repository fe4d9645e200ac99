//! The command, with the reference in place of the program.
#![cfg(unix)]

use std::fs;
use std::os::unix::fs::PermissionsExt;
use std::path::{Path, PathBuf};
use std::process::Command;
use std::sync::OnceLock;

/// The reference in place of `replay`, which is built for the tests of its own package.
fn replay() -> PathBuf {
    let path = Path::new(env!("CARGO_BIN_EXE_compare-readers")).with_file_name("reference-replay");
    assert!(path.is_file(), "`cargo build` builds the reference too");
    path
}

/// A program that refuses by 8 what has to be refused by 6. It is written before any program is
/// started: a file open for writing cannot be executed.
fn wrong_replay() -> &'static Path {
    static WRONG: OnceLock<PathBuf> = OnceLock::new();
    WRONG.get_or_init(|| {
        let program = Path::new(env!("CARGO_TARGET_TMPDIR")).join("wrong-replay");
        let right = replay();
        let script = format!(
            "#!/bin/sh\n'{}' | sed 's/refused 6/refused 8/'\n",
            path(&right)
        );
        fs::write(&program, script).expect("the file can be written");
        let mode = fs::Permissions::from_mode(0o755);
        fs::set_permissions(&program, mode).expect("the file can be made a program");
        program
    })
}

/// Exit status, standard output and standard error.
fn run(arguments: &[&str]) -> (Option<i32>, String, String) {
    wrong_replay();
    let output = Command::new(env!("CARGO_BIN_EXE_compare-readers"))
        .args(arguments)
        .output()
        .expect("the command can be started");
    let text = |bytes| String::from_utf8(bytes).expect("text");
    (
        output.status.code(),
        text(output.stdout),
        text(output.stderr),
    )
}

fn path(path: &Path) -> &str {
    path.to_str().expect("the path is text")
}

#[test]
fn it_is_silent_where_nothing_differs() {
    let silent = (Some(0), String::new(), String::new());
    assert_eq!(run(&[path(&replay()), "4000", "3"]), silent);
}

#[test]
fn a_report_has_a_row_for_each_kind() {
    let (status, printed, _) = run(&[path(&replay()), "4000", "3", "--report"]);
    assert_eq!(status, Some(0));
    let numbers = printed.lines().map(|row| row.split_whitespace().next());
    let numbers = numbers.map(|number| number.and_then(|text| text.parse::<u64>().ok()));
    let numbers: Vec<u64> = numbers.collect::<Option<_>>().expect("numbers");
    assert_eq!(
        (numbers.len(), numbers.iter().sum()),
        (4, 4_000),
        "{printed}"
    );
}

#[test]
fn few_lines_prove_nothing() {
    let (status, _, message) = run(&[path(&replay()), "100"]);
    assert_eq!(status, Some(1));
    let start = "compare-readers: seen too seldom: accepted (";
    assert!(message.starts_with(start), "{message}");
}

#[test]
fn the_first_difference_is_named() {
    let (status, printed, message) = run(&[path(wrong_replay())]);
    assert_eq!((status, printed.as_str()), (Some(1), ""));
    assert!(message.contains("difference in the line `"), "{message}");
    assert!(
        message.contains("by the text command: refused 6\n"),
        "{message}"
    );
    assert!(
        message.contains("by replay:           refused 8\n"),
        "{message}"
    );
}

#[test]
fn a_program_that_fails_is_told() {
    for (program, how) in [
        ("/bin/false", "/bin/false ended with exit status 1"),
        ("/no/program", "/no/program cannot be run: "),
    ] {
        let (status, _, message) = run(&[program]);
        assert_eq!(status, Some(1));
        assert!(message.contains(how), "{message}");
    }
}

#[test]
fn other_arguments_are_not_understood() {
    for (arguments, reason) in [
        (&[][..], "a program is needed"),
        (&["replay", "many"], "many is not a number"),
        (&["replay", "1", "-1"], "-1 is not a number"),
        (&["replay", "1", "1", "1"], "1 is one argument too many"),
        (&["replay", "--keep"], "unknown --keep"),
    ] {
        let (status, _, message) = run(arguments);
        assert_eq!(status, Some(2));
        let start = format!("compare-readers: {reason}\nusage: ");
        assert!(message.starts_with(&start), "{message}");
    }
}
