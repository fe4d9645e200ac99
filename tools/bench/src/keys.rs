//! Keys of many small pairs: the text command on one file, beside `verdict` started for each pair.

use std::path::{Path, PathBuf};
use std::process::Command;
use std::time::Instant;

use crate::times::{resolved, Estimate, REPETITIONS};
use unit::program::{ask, ask_lines, input};
use unit::Term;

/// The two ways, in this order everywhere.
pub const WAYS: [&str; 2] = ["judge --key", "a run of verdict for each"];

/// The limits of both ways.
const BUDGET: u32 = 1_000;
const WORDS: u32 = 2_048;

/// What keys are judged with.
pub struct Judges {
    pub judge: PathBuf,
    pub replay: PathBuf,
    pub verdict: PathBuf,
}

pub struct KeyRow {
    pub pairs: usize,
    /// Seconds for all pairs, by each way.
    pub times: [Option<Estimate>; WAYS.len()],
}

/// The texts of a pair of the kind that a course has, and its verdict.
fn pair(number: usize) -> ([String; 2], &'static str) {
    let name = number % 200;
    let (left, right, verdict) = match number % 5 {
        0 => (format!(r"(\\1) {name} 0"), name.to_string(), "Same"),
        1 => ("%2 %2".to_string(), "%4".to_string(), "Same"),
        2 => (r"\1 0".to_string(), name.to_string(), "Different"),
        3 => (
            format!("?#2[{name},#1]{{1.0:5,2.2:1}}"),
            name.to_string(),
            "Same",
        ),
        _ => (format!(r"(\0 0) (\\{name})"), "%1".to_string(), "Different"),
    };
    ([left, right], verdict)
}

/// Times so many pairs by both ways, by turns.
pub fn row(pairs: usize, judges: &Judges) -> Result<KeyRow, String> {
    let pairs: Vec<([String; 2], &str)> = (0..pairs).map(pair).collect();
    let mut samples = [Vec::new(), Vec::new()];
    for _ in 0..REPETITIONS {
        for (samples, way) in samples.iter_mut().zip([by_key, by_runs]) {
            let start = Instant::now();
            way(&pairs, judges)?;
            samples.push(start.elapsed().as_secs_f64());
        }
    }
    Ok(KeyRow {
        pairs: pairs.len(),
        times: samples.map(|mut samples| resolved(&mut samples)),
    })
}

type Pairs<'a> = &'a [([String; 2], &'a str)];

fn by_key(pairs: Pairs, judges: &Judges) -> Result<(), String> {
    let lines = pairs
        .iter()
        .map(|([left, right], _)| format!("{left} | {right}\n"));
    let key: String = lines.collect();
    let mut command = Command::new(&judges.judge);
    command.args(["--key", "-", "--format", "csv"]);
    command.args(["--budget", &BUDGET.to_string()]);
    command.args(["--words", &WORDS.to_string()]);
    command.arg("--program").arg(&judges.replay);
    let printed = ask_lines(&mut command, key.as_bytes());
    let printed = printed.map_err(|error| failed(&judges.judge, error.to_string()))?;
    let rows: Vec<&str> = printed.lines().skip(1).collect();
    let is_right =
        |(row, (_, verdict)): (&&str, &([String; 2], &str))| row.contains(&format!(",{verdict},"));
    match rows.len() == pairs.len() && rows.iter().zip(pairs).all(is_right) {
        true => Ok(()),
        false => Err(failed(&judges.judge, "another verdict".to_string())),
    }
}

fn by_runs(pairs: Pairs, judges: &Judges) -> Result<(), String> {
    for ([left, right], verdict) in pairs {
        let term = |text: &str| -> Term { text.parse().expect("a term") };
        let input = input(BUDGET, WORDS, &term(left), &term(right));
        let line = ask(&mut Command::new(&judges.verdict), &input);
        let line = line.map_err(|error| failed(&judges.verdict, error.to_string()))?;
        if !line.starts_with(verdict) {
            return Err(failed(&judges.verdict, format!("{line}, not {verdict}")));
        }
    }
    Ok(())
}

fn failed(program: &Path, reason: String) -> String {
    format!("{}: {reason}", program.display())
}

#[cfg(test)]
mod tests {
    use super::*;

    #[test]
    fn every_pair_is_small() {
        for number in 0..1_000 {
            let (texts, _) = pair(number);
            for text in texts {
                let term: Term = text.parse().expect("a term");
                assert!(term.length() < 16, "{text}");
            }
        }
    }
}
