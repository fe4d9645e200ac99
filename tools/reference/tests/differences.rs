//! The comparing program on the reference itself, with its answers changed a
//! little, in one case only or by the way that it is run. One test alone,
//! since a file that is being written cannot be started.
#![cfg(unix)]

use reference::generate::{inputs, scripts};
use reference::{on_large_stack, replay};
use std::fs;
use std::os::unix::fs::PermissionsExt;
use std::path::{Path, PathBuf};
use std::process::Command;

const VERDICT: &str = env!("CARGO_BIN_EXE_reference-verdict");
const REPLAY: &str = env!("CARGO_BIN_EXE_reference-replay");
const SEED: u64 = 2;

/// A folder of this test's own.
fn folder() -> PathBuf {
    Path::new(env!("CARGO_TARGET_TMPDIR")).join("differences")
}

fn in_folder(name: &str) -> String {
    let path = folder().join(name);
    path.to_str().expect("the path is text").to_string()
}

/// A shell program with the given lines.
fn program(name: &str, lines: &str) -> String {
    let path = in_folder(name);
    fs::write(&path, format!("#!/bin/sh\n{lines}\n")).expect("the file can be written");
    let mode = fs::Permissions::from_mode(0o755);
    fs::set_permissions(&path, mode).expect("the file can be made a program");
    path
}

/// The message of a run of so many cases; without one the run succeeds.
fn compared(verdict: &str, replay: &str, cases: u64, options: &[&str]) -> String {
    let output = Command::new(env!("CARGO_BIN_EXE_compare"))
        .args([verdict, replay, &cases.to_string(), &SEED.to_string()])
        .args(["--keep", &in_folder("")])
        .args(options)
        .output()
        .expect("compare can be started");
    let message = String::from_utf8_lossy(&output.stderr).into_owned();
    let status = i32::from(!message.is_empty());
    assert_eq!(output.status.code(), Some(status), "{message}");
    message
}

#[test]
fn small_differences_are_found() {
    fs::create_dir_all(folder()).expect("the folder can be made");
    answers_changed_a_little();
    positions_printed_otherwise();
    one_wrong_case();
    inputs_as_files_and_through_pipes();
    a_program_that_takes_too_long();
}

fn answers_changed_a_little() {
    for (name, change, got) in [
        ("last-line-missing", "sed '$d'", "(end of output)"),
        ("last-byte-missing", r#"printf %s "$(cat)""#, ""),
        ("one-byte-more", "cat; echo", ""),
        ("last-line-longer", "sed '$s/$/ 0/'", " 0"),
        ("exit-status-1", "cat; exit 1", "(exit status 1)"),
    ] {
        let changed = |of: &str| program(name, &format!("'{of}' | {{ {change}; }}"));
        let end = format!("{got}\ninput kept in {}", in_folder("difference.bin"));
        let message = compared(&changed(VERDICT), "-", 20, &[]);
        assert!(message.trim_end().ends_with(&end), "{message}");
        let message = compared("-", &changed(REPLAY), 20, &[]);
        assert!(message.trim_end().ends_with(&end), "{message}");
    }
    // The line is told: here the last one that was expected.
    let longer = program("longer", &format!("'{REPLAY}' | sed '$s/$/ 0/'"));
    let message = compared("-", &longer, 20, &[]);
    let input = fs::read(in_folder("difference.bin")).expect("the input is kept");
    let lines = on_large_stack(|| replay::run(&input).text.lines().count());
    assert!(message.contains(&format!(", line {lines}\n")), "{message}");
}

/// Lines of a press start with a verdict, which has a capital letter.
fn positions_printed_otherwise() {
    for (name, change) in [
        ("not-printed", "/^Different/s/ [0-9]*$//"),
        ("always-0", "/^Different/s/ [0-9]*$/ 0/"),
        ("printed-always", "/^[SBF][a-z]* /s/$/ 0/"),
    ] {
        let changed = program(name, &format!("'{VERDICT}' | sed '{change}'"));
        let message = compared(&changed, "-", 60, &[]);
        assert!(message.contains("\nexpected: "), "{name}: {message}");
    }
    for (name, change) in [
        ("missing", "/^[SDBF][a-z]* /s/ [0-9]*$//"),
        ("missing-elsewhere", "/^[SBF][a-z]* /s/ [0-9]*$//"),
        ("different-at-0", "/^Different/s/ [0-9]*$/ 0/"),
    ] {
        let changed = program(name, &format!("'{REPLAY}' | sed '{change}'"));
        let message = compared("-", &changed, 60, &[]);
        assert!(message.contains("\nexpected: "), "{name}: {message}");
    }
}

/// Of three cases two are inputs of the one program and one is a script.
fn one_wrong_case() {
    let wrong_on = |name: &str, of: &str, input: Vec<u8>| {
        let (stored, given) = (in_folder("stored"), in_folder("given"));
        fs::write(&stored, input).expect("the input can be written");
        let lines = format!(
            "cat >'{given}'.$$\n\
             if cmp -s '{given}'.$$ '{stored}'; then echo wrong; else '{of}' <'{given}'.$$; fi\n\
             rm '{given}'.$$"
        );
        program(name, &lines)
    };
    let found = |verdict: &str, replay: &str, case: u64| {
        assert_eq!(compared(verdict, replay, case, &[]), "");
        let message = compared(verdict, replay, case + 1, &[]);
        assert!(
            message.contains(&format!("in case {case} of seed {SEED},")),
            "{message}"
        );
        assert!(message.contains("\ngot:      wrong\n"), "{message}");
    };
    let input = on_large_stack(|| inputs::input(SEED, 5));
    let wrong = wrong_on("wrong-verdict", VERDICT, input);
    found(&wrong, "-", 5);
    found(&wrong, REPLAY, 7);
    let script = on_large_stack(|| scripts::script(SEED, 4));
    let wrong = wrong_on("wrong-replay", REPLAY, script);
    found("-", &wrong, 4);
    found(VERDICT, &wrong, 14);
}

/// Case 0 of eleven is a file, case 1 a pipe.
fn inputs_as_files_and_through_pipes() {
    for (kind, case) in [("-f", 0), ("-p", 1)] {
        let lines = format!("test {kind} /dev/stdin && echo seen\nexec '{VERDICT}'");
        let message = compared(&program("kind", &lines), "-", 11, &[]);
        assert!(
            message.contains(&format!("in case {case} of ")),
            "{message}"
        );
    }
}

fn a_program_that_takes_too_long() {
    let slow = program("slow", &format!("sleep 3\nexec '{VERDICT}'"));
    let message = compared(&slow, "-", 1, &["--wait", "1"]);
    assert!(
        message.contains("\ngot:      (nothing in time)\n"),
        "{message}"
    );
}
