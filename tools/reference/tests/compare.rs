//! The comparing program, run on the reference itself and on programs that
//! answer otherwise.

use reference::generate::{inputs, scripts};
use reference::tally::{Halves, Tally};
use reference::{on_large_stack, replay, verdict};
use std::fs;
use std::path::PathBuf;
use std::process::{Command, Output};

const VERDICT: &str = env!("CARGO_BIN_EXE_reference-verdict");
const REPLAY: &str = env!("CARGO_BIN_EXE_reference-replay");

const BOTH: Halves = Halves {
    verdict: true,
    replay: true,
};

fn compare(arguments: &[&str]) -> Output {
    Command::new(env!("CARGO_BIN_EXE_compare"))
        .args(arguments)
        .output()
        .expect("compare can be started")
}

/// A directory of its own for one test.
fn directory(name: &str) -> PathBuf {
    let path = PathBuf::from(env!("CARGO_TARGET_TMPDIR")).join(name);
    fs::create_dir_all(&path).expect("the directory can be made");
    path
}

/// The message of a run that must fail with a difference.
fn difference(name: &str, programs: [&str; 2]) -> (String, Vec<u8>) {
    let directory = directory(name);
    let keep = directory.to_str().expect("the path is text");
    let [verdict, replay] = programs;
    let output = compare(&[verdict, replay, "60", "2", "--keep", keep]);
    assert_eq!(output.status.code(), Some(1));
    assert!(output.stdout.is_empty());
    let kept = fs::read(directory.join("difference.bin")).expect("the input is kept");
    (String::from_utf8_lossy(&output.stderr).into_owned(), kept)
}

#[test]
fn silent_on_success() {
    for programs in [[VERDICT, REPLAY], [VERDICT, "-"], ["-", REPLAY]] {
        let output = compare(&[programs[0], programs[1], "150", "2"]);
        assert_eq!(output.status.code(), Some(0));
        assert!(output.stdout.is_empty() && output.stderr.is_empty());
    }
}

#[test]
fn the_report_counts_every_case() {
    let output = compare(&[VERDICT, REPLAY, "150", "2", "--report"]);
    let report = String::from_utf8_lossy(&output.stdout).into_owned();
    // Two of three cases are inputs of the verdict program.
    let verdicts = report.lines().filter(|line| line.contains("verdict: "));
    let counts = verdicts.filter_map(|line| line.split_whitespace().next()?.parse::<usize>().ok());
    assert_eq!(counts.sum::<usize>(), 100);
    for kind in [
        "replay: press refused 10",
        "replay, press refused 10 by a numeral",
        "verdict, press Full by a numeral",
        "verdict, press Same with a default taken",
        "replay, press refused 10 by the place of a default",
        "verdict, press Different behind equal words",
        "replay, press Budget behind equal words",
        "replay, show Right at equal lengths",
        "replay: line refused 6",
        "replay, line refused 11 by a space",
        "replay: import refused 12",
        "replay: export refused 13",
        "replay, import refused 12 by the padding",
        "replay, export refused 13, not 8",
    ] {
        assert!(report.contains(&format!(" {kind}\n")), "{kind}");
    }
}

#[test]
fn the_first_difference_is_kept() {
    // The replaying program reads every input of the other as a script.
    let (message, kept) = difference("swapped", [REPLAY, REPLAY]);
    let first = on_large_stack(|| inputs::input(2, 0));
    assert_eq!(kept, first);
    assert!(message.contains("case 0 of seed 2, program "), "{message}");
    assert!(message.contains(", line 1\n"), "{message}");
    assert!(message.contains("\nexpected: Same "), "{message}");
    assert!(message.contains("\ngot:      "), "{message}");
}

#[test]
fn a_difference_in_a_script_is_found() {
    let (message, _) = difference("script", [VERDICT, VERDICT]);
    assert!(message.contains("case 2 of seed 2"), "{message}");
}

#[test]
fn silence_and_endless_output_are_differences() {
    let (message, _) = difference("silent", ["true", "-"]);
    assert!(message.contains("got:      (end of output)"), "{message}");
    let (message, _) = difference("endless", ["yes", "-"]);
    assert!(message.contains("got:      y"), "{message}");
}

#[test]
fn a_program_that_is_not_there() {
    let (message, _) = difference("absent", ["./no-such-program", "-"]);
    assert!(message.contains("(not run: "), "{message}");
}

#[test]
fn wrong_arguments() {
    for arguments in [
        &[][..],
        &[VERDICT],
        &["-", "-"],
        &[VERDICT, REPLAY, "many"],
        &[VERDICT, REPLAY, "1", "1", "1"],
        &[VERDICT, REPLAY, "--fast"],
        &[VERDICT, REPLAY, "--keep"],
    ] {
        let output = compare(arguments);
        assert_eq!(output.status.code(), Some(2), "{arguments:?}");
        assert!(String::from_utf8_lossy(&output.stderr).contains("usage: compare"));
    }
}

/// What eighty-four cases of a seed have to see once and do not.
fn missing(seed: u64) -> Vec<(String, usize)> {
    let mut tally = Tally::default();
    for case in 0..56 {
        let input = inputs::input(seed, case);
        tally.verdict(&verdict::outcome(&input));
        verdict::watch(&input, |before, operation| {
            tally.call("verdict", before, operation);
        });
    }
    for case in 0..28 {
        let script = scripts::script(seed, case);
        let transcript = replay::run_watched(&script, |before, operation| {
            tally.call("replay", before, operation);
        });
        transcript
            .events
            .iter()
            .for_each(|event| tally.event(event));
    }
    tally.too_few(84, BOTH)
}

#[test]
fn a_run_that_sees_too_little_fails() {
    let missing = |seed| Some((seed, missing(seed))).filter(|(_, few)| !few.is_empty());
    let found = on_large_stack(|| (1..100).find_map(missing));
    let (seed, few) = found.expect("so few cases are too few for some seed");
    let output = compare(&[VERDICT, REPLAY, "84", &seed.to_string()]);
    assert_eq!(output.status.code(), Some(1));
    let few = few
        .iter()
        .map(|(kind, least)| format!("{kind} (0 of {least})"));
    let few: Vec<String> = few.collect();
    assert_eq!(
        String::from_utf8_lossy(&output.stderr),
        format!("compare: seen too seldom: {}\n", few.join(", "))
    );
}

#[test]
fn kinds_that_are_not_seen_are_named() {
    let none = Tally::default();
    // Four verdicts, refusals 1 to 9, Input, five parts of numerals and ten of
    // defaults; in scripts nine answers of load, seven of press, three of show,
    // four of write, five each of lines, imports and exports, four others, ten
    // parts of numerals, fifteen of defaults, seven choices of a form to show,
    // six faults of lines, and what fifteen imports and twelve exports meet. In
    // both, nine shapes of forms, which may be less frequent.
    assert_eq!(none.too_few(80, BOTH).len(), 29 + 107);
    assert_eq!(none.too_few(79, BOTH).len(), 0);
    assert_eq!(none.too_few(120, BOTH).len(), 29 + 107 + 2 * 9);
    assert_eq!(none.too_few(119, BOTH).len(), 29 + 107);
    let verdict = Halves {
        replay: false,
        ..BOTH
    };
    let least = |cases, kind: &str| {
        let few = none.too_few(cases, verdict);
        assert_eq!(few.len(), 29 + 9);
        few.iter().find(|few| few.0 == kind).map(|few| few.1)
    };
    let (kind, shape) = (
        "verdict: Refused 9",
        "verdict, press Different at equal lengths",
    );
    for (cases, kinds, shapes) in [(6_000, 150, 100), (3_000, 75, 50), (2_999, 37, 24)] {
        assert_eq!(least(cases, kind), Some(kinds));
        assert_eq!(least(cases, shape), Some(shapes));
    }
}
