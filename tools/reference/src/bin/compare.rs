//! Compares the built programs with the reference on generated inputs.

use reference::child::{self, Ending, Feed};
use reference::generate::{inputs, scripts};
use reference::tally::{Halves, Tally};
use reference::term::WORKSPACE;
use reference::{replay, verdict, LARGE_STACK};
use std::path::{Path, PathBuf};
use std::process::{self, ExitCode};
use std::sync::atomic::{AtomicBool, AtomicUsize, Ordering};
use std::time::Duration;
use std::{env, fs, thread};

const USAGE: &str = "\
usage: compare VERDICT REPLAY [CASES [SEED]] [--report] [--keep DIR] [--wait SECONDS]
  VERDICT, REPLAY  paths of the built programs; - leaves one out
  CASES            number of inputs, 6000 if not given; from 6000 on there is besides one for
                   each program and each length that workspaces may have
  SEED             start of the random numbers, 1 if not given
  --report         print how often each kind of answer was seen
  --keep DIR       where difference.bin is written, the current directory if not given
  --wait SECONDS   time that a program has for one input, 20 if not given";

/// The cases of a run that also goes through all lengths of workspaces.
const WHOLE: usize = 6_000;
/// Programs that run at the same time.
const WORKERS: usize = 2;
/// The longest part of an answer that a message shows.
const SHOWN: usize = 300;

fn main() -> ExitCode {
    let run = match Run::from_arguments(env::args().skip(1)) {
        Ok(run) => run,
        Err(problem) => {
            eprintln!("compare: {problem}\n{USAGE}");
            return ExitCode::from(2);
        }
    };
    let (tally, problem) = run.all_cases();
    if run.report {
        print!("{tally}");
    }
    match problem {
        None => ExitCode::SUCCESS,
        Some(problem) => {
            eprintln!("compare: {problem}");
            ExitCode::FAILURE
        }
    }
}

struct Run {
    verdict: Option<PathBuf>,
    replay: Option<PathBuf>,
    cases: usize,
    seed: u64,
    report: bool,
    keep: PathBuf,
    time: Duration,
}

impl Run {
    fn from_arguments(mut arguments: impl Iterator<Item = String>) -> Result<Run, String> {
        let mut run = Run {
            verdict: None,
            replay: None,
            cases: WHOLE,
            seed: 1,
            report: false,
            keep: PathBuf::new(),
            time: Duration::from_secs(20),
        };
        let mut place = 0;
        while let Some(argument) = arguments.next() {
            let mut value = || arguments.next().ok_or(format!("{argument} needs a value"));
            match argument.as_str() {
                "--report" => run.report = true,
                "--keep" => run.keep = PathBuf::from(value()?),
                "--wait" => run.time = Duration::from_secs(number(&value()?)?),
                option if option.starts_with("--") => return Err(format!("unknown {option}")),
                _ => {
                    run.positional(place, &argument)?;
                    place += 1;
                }
            }
        }
        match (place, &run.verdict, &run.replay) {
            (0 | 1, ..) => Err("two programs are needed".to_string()),
            (_, None, None) => Err("both programs are left out".to_string()),
            _ => Ok(run),
        }
    }

    fn positional(&mut self, place: usize, argument: &str) -> Result<(), String> {
        let program = (argument != "-").then(|| PathBuf::from(argument));
        match place {
            0 => self.verdict = program,
            1 => self.replay = program,
            2 => self.cases = number(argument)? as usize,
            3 => self.seed = number(argument)?,
            _ => return Err(format!("{argument} is one argument too many")),
        }
        Ok(())
    }

    /// Runs all cases; the problem is the first difference or, without one,
    /// the kinds of answers that were seen too seldom.
    fn all_cases(&self) -> (Tally, Option<String>) {
        let (next, stopped) = (AtomicUsize::new(0), AtomicBool::new(false));
        let mut tally = Tally::default();
        let mut problems = Vec::new();
        thread::scope(|scope| {
            let (next, stopped) = (&next, &stopped);
            let workers: Vec<_> = (0..WORKERS)
                .map(|worker| {
                    let thread = thread::Builder::new().stack_size(LARGE_STACK);
                    thread.spawn_scoped(scope, move || self.work(worker, next, stopped))
                })
                .collect();
            for worker in workers {
                match worker.map(|thread| thread.join()) {
                    Ok(Ok((seen, problem))) => {
                        tally.add(seen);
                        problems.extend(problem);
                    }
                    Ok(Err(_)) => problems.push(Problem::outside("the reference failed")),
                    Err(error) => problems.push(Problem::outside(&error.to_string())),
                }
            }
        });
        let problem = match problems.into_iter().min_by_key(|problem| problem.case) {
            Some(problem) => Some(self.kept(problem)),
            None => self.too_few(&tally),
        };
        (tally, problem)
    }

    fn too_few(&self, tally: &Tally) -> Option<String> {
        let halves = Halves {
            verdict: self.verdict.is_some(),
            replay: self.replay.is_some(),
        };
        let few = tally.too_few(self.cases, halves);
        let list: Vec<_> = few
            .iter()
            .map(|(kind, least)| format!("{kind} ({} of {least})", tally.seen(kind)))
            .collect();
        (!few.is_empty()).then(|| format!("seen too seldom: {}", list.join(", ")))
    }

    /// The problem's text, once its input is written to a file.
    fn kept(&self, problem: Problem) -> String {
        let Some(input) = problem.input else {
            return problem.text;
        };
        let path = self.keep.join("difference.bin");
        match fs::write(&path, input) {
            Ok(()) => format!("{}\ninput kept in {}", problem.text, path.display()),
            Err(error) => format!("{}\ninput not kept: {error}", problem.text),
        }
    }

    /// Takes cases in turn until there are none left or one is a problem.
    fn work(
        &self,
        worker: usize,
        next: &AtomicUsize,
        stopped: &AtomicBool,
    ) -> (Tally, Option<Problem>) {
        let mut tally = Tally::default();
        let file = env::temp_dir().join(format!("compare-{}-{worker}.bin", process::id()));
        while !stopped.load(Ordering::Relaxed) {
            let case = next.fetch_add(1, Ordering::Relaxed);
            if case >= self.cases + self.lengths() {
                break;
            }
            if let Err(problem) = self.one_case(case, &file, &mut tally) {
                stopped.store(true, Ordering::Relaxed);
                return (tally, Some(problem));
            }
        }
        (tally, None)
    }

    /// The cases behind the random ones, each with a length of its own.
    fn lengths(&self) -> usize {
        match self.cases < WHOLE {
            true => 0,
            false => WORKSPACE.count() * self.programs().len(),
        }
    }

    fn programs(&self) -> Vec<&Path> {
        let programs = [&self.verdict, &self.replay];
        programs
            .into_iter()
            .flatten()
            .map(PathBuf::as_path)
            .collect()
    }

    fn one_case(&self, case: usize, file: &Path, tally: &mut Tally) -> Result<(), Problem> {
        let (program, input, expected) = match (&self.verdict, &self.replay) {
            _ if case >= self.cases => self.length_case(case - self.cases),
            // Two inputs of the verdict program, then one script.
            (Some(verdict), Some(_)) if case % 3 < 2 => {
                self.verdict_case(verdict, 2 * (case / 3) + case % 3, tally)
            }
            (Some(_), Some(replay)) => self.replay_case(replay, case / 3, tally),
            (Some(program), None) => self.verdict_case(program, case, tally),
            (None, Some(program)) => self.replay_case(program, case, tally),
            (None, None) => return Ok(()),
        };
        let feed = feed(case, input.len(), file);
        let result = child::run(program, &input, feed, expected.len(), self.time);
        let got = match result {
            Ok(Ending::Printed(bytes)) if bytes == expected.as_bytes() => return Ok(()),
            Ok(Ending::Printed(bytes)) => bytes,
            Ok(Ending::Stopped(bytes)) if !bytes.is_empty() => bytes,
            Ok(Ending::Stopped(_)) => b"(nothing in time)".to_vec(),
            Ok(Ending::Failed(status)) => format!("(exit status {status})").into_bytes(),
            Ok(Ending::Crashed) => b"(ended by a signal)".to_vec(),
            Err(error) => format!("(not run: {error})").into_bytes(),
        };
        Err(self.difference(case, program, input, &expected, &got))
    }

    /// One program, by turns, in workspaces of one length.
    fn length_case(&self, index: usize) -> (&Path, Vec<u8>, String) {
        let programs = self.programs();
        let program = programs[index % programs.len()];
        let capacity = WORKSPACE.start() + index / programs.len();
        if self.verdict.as_deref() == Some(program) {
            let input = inputs::in_length(self.seed, capacity);
            let expected = verdict::outcome(&input).to_string();
            return (program, input, expected);
        }
        let input = scripts::in_length(self.seed, capacity);
        let expected = replay::run_watched(&input, |_, _| ()).text;
        (program, input, expected)
    }

    fn verdict_case<'a>(
        &self,
        program: &'a Path,
        index: usize,
        tally: &mut Tally,
    ) -> (&'a Path, Vec<u8>, String) {
        let input = inputs::input(self.seed, index as u64);
        let outcome = verdict::outcome(&input);
        tally.verdict(&outcome);
        verdict::watch(&input, |before, operation| {
            tally.call("verdict", before, operation);
        });
        (program, input, outcome.to_string())
    }

    fn replay_case<'a>(
        &self,
        program: &'a Path,
        index: usize,
        tally: &mut Tally,
    ) -> (&'a Path, Vec<u8>, String) {
        let input = scripts::script(self.seed, index as u64);
        let transcript = replay::run_watched(&input, |before, operation| {
            tally.call("replay", before, operation);
        });
        transcript
            .events
            .iter()
            .for_each(|event| tally.event(event));
        (program, input, transcript.text)
    }

    fn difference(
        &self,
        case: usize,
        program: &Path,
        input: Vec<u8>,
        expected: &str,
        got: &[u8],
    ) -> Problem {
        let got = String::from_utf8_lossy(got);
        let alike = |(one, other): &(&str, &str)| one == other;
        let lines = expected.lines().zip(got.lines()).take_while(alike).count();
        let text = format!(
            "difference in case {case} of seed {}, program {}, line {}\nexpected: {}\ngot:      {}",
            self.seed,
            program.display(),
            lines + 1,
            shown(expected, lines),
            shown(&got, lines),
        );
        let input = Some(input);
        Problem { case, input, text }
    }
}

/// Why a run fails, and the input that shows it if there is one.
struct Problem {
    case: usize,
    input: Option<Vec<u8>>,
    text: String,
}

impl Problem {
    /// A problem with no case of its own.
    fn outside(text: &str) -> Self {
        Problem {
            case: usize::MAX,
            input: None,
            text: text.to_string(),
        }
    }
}

fn number(argument: &str) -> Result<u64, String> {
    argument
        .parse()
        .map_err(|_| format!("{argument} is not a number"))
}

/// Whole inputs, pieces that cut words, and files by turns.
fn feed(case: usize, length: usize, file: &Path) -> Feed<'_> {
    match case % 11 {
        0 => Feed::File(file),
        1 if length < 2_000 => Feed::Pipe(1),
        2 if length < 9_000 => Feed::Pipe(7),
        3 => Feed::Pipe(4_099),
        _ => Feed::Pipe(length.max(1)),
    }
}

/// A line of an answer, cut to a length that a screen holds.
fn shown(text: &str, line: usize) -> String {
    match text.lines().nth(line) {
        Some(line) if line.len() > SHOWN => {
            let start: String = line.chars().take(SHOWN).collect();
            format!("{start}..")
        }
        Some(line) => line.to_string(),
        None => "(end of output)".to_string(),
    }
}
