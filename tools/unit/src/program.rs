//! The unit's programs: what `verdict` reads, and the lines that programs print.

use std::fmt;
use std::io::{self, ErrorKind, Write};
use std::process::{ChildStdin, Command, ExitStatus, Output, Stdio};
use std::thread;

use crate::table::table;
use crate::term::Term;

/// Standard input of the program `verdict`: budget, C and both tables, each after the number of its words.
pub fn input(budget: u32, c: u32, left: &Term, right: &Term) -> Vec<u8> {
    let mut words = vec![budget, c];
    for term in [left, right] {
        let table = table(term);
        words.push(u32::try_from(table.len()).expect("a table has fewer than 2^32 words"));
        words.extend(table);
    }
    words.into_iter().flat_map(u32::to_le_bytes).collect()
}

/// A program that did not print what it must.
#[derive(Debug)]
pub enum ProgramError {
    NotRun(io::Error),
    Failed(ExitStatus),
    NoLine,
}

impl fmt::Display for ProgramError {
    fn fmt(&self, f: &mut fmt::Formatter) -> fmt::Result {
        match self {
            ProgramError::NotRun(error) => write!(f, "cannot be run: {error}"),
            ProgramError::Failed(status) => write!(f, "failed: {status}"),
            ProgramError::NoLine => write!(f, "printed something else than one line"),
        }
    }
}

/// Runs the command on the input and takes the line that it prints.
pub fn ask(command: &mut Command, input: &[u8]) -> Result<String, ProgramError> {
    match ask_lines(command, input)? {
        line if !line.is_empty() && !line.contains('\n') => Ok(line),
        _ => Err(ProgramError::NoLine),
    }
}

/// Runs the command on the input and takes the lines that it prints, without the last newline.
pub fn ask_lines(command: &mut Command, input: &[u8]) -> Result<String, ProgramError> {
    lines(run(command, input).map_err(ProgramError::NotRun)?)
}

fn run(command: &mut Command, input: &[u8]) -> io::Result<Output> {
    let mut child = command
        .stdin(Stdio::piped())
        .stdout(Stdio::piped())
        .spawn()?;
    let stdin = child.stdin.take().expect("standard input is piped");
    // Written beside the reading, so that neither pipe can fill up and stop both.
    thread::scope(|scope| {
        let writer = scope.spawn(|| feed(stdin, input));
        let output = child.wait_with_output();
        writer.join().expect("writing does not panic")?;
        output
    })
}

/// Writes the input. A program that has read enough may close its end early.
fn feed(mut stdin: ChildStdin, input: &[u8]) -> io::Result<()> {
    match stdin.write_all(input) {
        Err(error) if error.kind() == ErrorKind::BrokenPipe => Ok(()),
        result => result,
    }
}

/// The lines that a program printed, without the last newline.
pub fn lines(output: Output) -> Result<String, ProgramError> {
    if !output.status.success() {
        return Err(ProgramError::Failed(output.status));
    }
    let text = String::from_utf8(output.stdout).map_err(|_| ProgramError::NoLine)?;
    let lines = text.strip_suffix('\n').ok_or(ProgramError::NoLine)?;
    Ok(lines.to_string())
}
