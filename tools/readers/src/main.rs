//! Compares the reader of lines in the program `replay` with the text command's reader.

use readers::{compare, text_words, Counts};
use reference::child::{self, Ending, Feed};
use reference::on_large_stack;
use std::env;
use std::path::{Path, PathBuf};
use std::process::ExitCode;
use std::time::Duration;

const USAGE: &str = "\
usage: compare-readers REPLAY [CASES [SEED]] [--report]
  REPLAY    path of the built program
  CASES     number of lines, 6000 if not given
  SEED      start of the random numbers, 1 if not given
  --report  print how often each kind of answer was seen";

/// The time that the program has for one script, and the bytes that it may print.
const TIME: Duration = Duration::from_secs(20);
const MOST: usize = 64 << 20;

fn main() -> ExitCode {
    let run = match Run::from_arguments(env::args().skip(1)) {
        Ok(run) => run,
        Err(problem) => {
            eprintln!("compare-readers: {problem}\n{USAGE}");
            return ExitCode::from(2);
        }
    };
    match on_large_stack(|| run.counts()) {
        Ok(()) => ExitCode::SUCCESS,
        Err(problem) => {
            eprintln!("compare-readers: {problem}");
            ExitCode::FAILURE
        }
    }
}

struct Run {
    replay: PathBuf,
    cases: u64,
    seed: u64,
    report: bool,
}

impl Run {
    fn from_arguments(arguments: impl Iterator<Item = String>) -> Result<Run, String> {
        let (options, others): (Vec<String>, Vec<String>) =
            arguments.partition(|argument| argument.starts_with("--"));
        if let Some(option) = options.iter().find(|option| *option != "--report") {
            return Err(format!("unknown {option}"));
        }
        let number = |place: usize, default: u64| match others.get(place) {
            None => Ok(default),
            Some(text) => text.parse().map_err(|_| format!("{text} is not a number")),
        };
        match others.get(3) {
            None => Ok(Run {
                replay: others.first().ok_or("a program is needed")?.into(),
                cases: number(1, 6_000)?,
                seed: number(2, 1)?,
                report: !options.is_empty(),
            }),
            Some(extra) => Err(format!("{extra} is one argument too many")),
        }
    }

    fn counts(&self) -> Result<(), String> {
        let replay = |script: &[u8]| transcript(&self.replay, script);
        let counts: Counts = compare(self.cases, self.seed, text_words, replay)?;
        if self.report {
            print!("{counts}");
        }
        counts.too_few().map_or(Ok(()), Err)
    }
}

/// What the program prints for a script.
fn transcript(program: &Path, script: &[u8]) -> Result<String, String> {
    let ending = child::run(program, script, Feed::Pipe(script.len()), MOST, TIME);
    let failed = |how: String| format!("{} {how}", program.display());
    match ending {
        Ok(Ending::Printed(bytes)) => {
            String::from_utf8(bytes).map_err(|_| failed("printed no text".to_string()))
        }
        Ok(Ending::Failed(status)) => Err(failed(format!("ended with exit status {status}"))),
        Ok(Ending::Crashed) => Err(failed("was ended by a signal".to_string())),
        Ok(Ending::Stopped(_)) => Err(failed("did not end in time".to_string())),
        Err(error) => Err(failed(format!("cannot be run: {error}"))),
    }
}
