//! The command, run on the unit's programs: those in the folder that `UNIT_PROGRAMS` names, or else the
//! reference in their place.

// Each test uses a part of it.
#![allow(dead_code)]

use std::env;
use std::fs;
use std::io::Write;
use std::path::{Path, PathBuf};
use std::process::{Command, Output, Stdio};
use std::sync::Once;

/// Those that the program replay does the work for; all others take the program verdict.
const REPLAYED: [&str; 2] = ["--key", "--forms"];

pub struct Answer {
    pub status: i32,
    pub output: String,
    pub message: String,
}

impl Answer {
    fn new(output: Output) -> Answer {
        let text = |bytes| String::from_utf8(bytes).expect("text");
        Answer {
            status: output.status.code().expect("an exit status"),
            output: text(output.stdout),
            message: text(output.stderr),
        }
    }
}

/// The command on these arguments, with the program that they need.
pub fn judge(arguments: &[&str]) -> Answer {
    judge_on(b"", arguments)
}

/// The same with an input.
pub fn judge_on(input: &[u8], arguments: &[&str]) -> Answer {
    let program = program_for(arguments);
    let program = program.to_str().expect("a path that is text");
    run(input, &[&["--program", program], arguments].concat())
}

fn program_for(arguments: &[&str]) -> PathBuf {
    let is_replayed = |argument: &&str| REPLAYED.contains(&argument.split('=').next().unwrap());
    match arguments.iter().any(is_replayed) {
        true => program("replay"),
        false => program("verdict"),
    }
}

/// What a command line prints, with `./judge` in it.
pub fn keyed(command: &str) -> String {
    let arguments: Vec<&str> = command.split(' ').collect();
    let output = Command::new("sh")
        .args([
            "-c",
            &command.replace("./judge ", r#""$JUDGE" --program "$PROGRAM" "#),
        ])
        .env("JUDGE", env!("CARGO_BIN_EXE_judge"))
        .env("PROGRAM", program_for(&arguments))
        .current_dir(Path::new(env!("CARGO_MANIFEST_DIR")).join("../.."))
        .output()
        .expect("the shell runs");
    String::from_utf8(output.stdout).expect("text")
}

/// The command on an input and these arguments as they are.
pub fn run(input: &[u8], arguments: &[&str]) -> Answer {
    let mut child = Command::new(env!("CARGO_BIN_EXE_judge"))
        .args(arguments)
        .stdin(Stdio::piped())
        .stdout(Stdio::piped())
        .stderr(Stdio::piped())
        .spawn()
        .expect("judge runs");
    let mut stdin = child.stdin.take().expect("standard input is piped");
    // A command that does not read its input may end first.
    let _ = stdin.write_all(input);
    drop(stdin);
    Answer::new(child.wait_with_output().expect("judge ends"))
}

pub fn program(name: &str) -> PathBuf {
    match env::var_os("UNIT_PROGRAMS") {
        Some(folder) => Path::new(&folder).join(name),
        None => reference(name),
    }
}

/// The reference in place of a program. It lies beside the command, and is built if only the command was.
fn reference(name: &str) -> PathBuf {
    static BUILT: Once = Once::new();
    let command = Path::new(env!("CARGO_BIN_EXE_judge"));
    let folder = command.parent().expect("a folder");
    BUILT.call_once(|| {
        let mut cargo = Command::new(env!("CARGO"));
        cargo.args(["build", "--quiet", "--package", "reference", "--bins"]);
        cargo.arg("--manifest-path");
        cargo.arg(Path::new(env!("CARGO_MANIFEST_DIR")).join("../Cargo.toml"));
        cargo
            .arg("--target-dir")
            .arg(folder.parent().expect("a folder"));
        if folder.ends_with("release") {
            cargo.arg("--release");
        }
        assert!(cargo.status().expect("cargo runs").success());
    });
    folder.join(format!("reference-{name}"))
}

/// A file of a test's own.
pub fn file(name: &str, bytes: impl AsRef<[u8]>) -> String {
    let path = Path::new(env!("CARGO_TARGET_TMPDIR")).join(name);
    fs::write(&path, bytes).expect("a file");
    path.to_str().expect("a path that is text").to_string()
}

/// The records of comma-separated values, each a list of fields.
pub fn records(text: &str) -> Vec<Vec<String>> {
    let mut records = vec![vec![String::new()]];
    let mut quoted = false;
    let mut rest = text.chars().peekable();
    while let Some(character) = rest.next() {
        let record = records.last_mut().expect("a record");
        let field = record.last_mut().expect("a field");
        match character {
            '"' if quoted && rest.peek() == Some(&'"') => {
                rest.next();
                field.push('"');
            }
            '"' => quoted = !quoted,
            ',' if !quoted => record.push(String::new()),
            '\r' if !quoted => {
                assert_eq!(rest.next(), Some('\n'), "a record ends in CR LF");
                records.push(vec![String::new()]);
            }
            other => field.push(other),
        }
    }
    assert_eq!(
        records.pop(),
        Some(vec![String::new()]),
        "the last record ends"
    );
    records
}
