//! One run of a program on an input: its lines, its time, its instructions, its stack.

use std::fs::{self, File};
use std::io;
use std::path::{Path, PathBuf};
use std::process::{self, Command, Output};
use std::time::{Duration, Instant};

/// Bytes for standard input, in a file that lasts as long as this value.
pub struct InputFile {
    path: PathBuf,
}

impl InputFile {
    pub fn new(name: &str, bytes: &[u8]) -> io::Result<InputFile> {
        let name = format!("verdict-bench-{}-{name}", process::id());
        let path = std::env::temp_dir().join(name);
        fs::write(&path, bytes)?;
        Ok(InputFile { path })
    }

    fn output(&self, command: &mut Command) -> io::Result<Output> {
        command.stdin(File::open(&self.path)?).output()
    }
}

impl Drop for InputFile {
    fn drop(&mut self) {
        // A file that stays behind does no harm.
        let _ = fs::remove_file(&self.path);
    }
}

/// Runs the program once: the lines that it prints and the time from its start to its end.
pub fn lines_of(program: &Path, input: &InputFile) -> Result<(String, Duration), String> {
    let failed = |reason: String| format!("{}: {reason}", program.display());
    let start = Instant::now();
    let output = input.output(&mut Command::new(program));
    let time = start.elapsed();
    let output = output.map_err(|error| failed(error.to_string()))?;
    let lines = unit::program::lines(output).map_err(|error| failed(error.to_string()))?;
    Ok((lines, time))
}

/// The instructions of a run of the program, those of the kernel left out, counted by callgrind.
pub fn instructions(program: &Path, input: &InputFile) -> Result<u64, String> {
    let mut valgrind = Command::new("valgrind");
    valgrind.args(["--tool=callgrind", "--callgrind-out-file=/dev/null"]);
    let output = input.output(valgrind.arg(program));
    let output = output.map_err(|error| format!("valgrind: {error}"))?;
    let report = String::from_utf8_lossy(&output.stderr);
    let count = report.lines().find_map(counted);
    count.ok_or_else(|| format!("valgrind counts nothing: {report}"))
}

/// What one run of the program has more than another.
pub fn difference(program: &Path, input: &InputFile, without: &InputFile) -> Result<u64, String> {
    let without = instructions(program, without)?;
    let more = instructions(program, input)?.checked_sub(without);
    more.ok_or_else(|| format!("{}: fewer instructions than without", program.display()))
}

/// The count, if this line of callgrind's report has it.
fn counted(line: &str) -> Option<u64> {
    line.split_once("Collected : ")?.1.trim().parse().ok()
}

/// A page: the step in which the kernel grants stack.
const STEP_KIB: u32 = 4;
const MAX_STACK_KIB: u32 = 8_192;
/// The stack starts at a random place in its first pages, so one run proves little.
const STACK_RUNS: usize = 5;

/// The smallest stack limit in KiB under which the program prints the lines every time.
pub fn stack_kib(program: &Path, input: &InputFile, lines: &str) -> Option<u32> {
    let fits = |steps: u32| {
        let run = |_| limited(program, input, steps * STEP_KIB).as_deref() == Some(lines);
        (0..STACK_RUNS).all(run)
    };
    let mut too_small = 0;
    let mut enough = MAX_STACK_KIB / STEP_KIB;
    if !fits(enough) {
        return None;
    }
    while enough - too_small > 1 {
        let middle = (too_small + enough) / 2;
        match fits(middle) {
            true => enough = middle,
            false => too_small = middle,
        }
    }
    Some(enough * STEP_KIB)
}

/// The lines that the program prints under a stack limit, with nothing in its environment.
fn limited(program: &Path, input: &InputFile, kib: u32) -> Option<String> {
    let mut shell = Command::new("/bin/sh");
    shell
        .args(["-c", r#"ulimit -c 0 && ulimit -s "$0" && exec "$1""#])
        .arg(kib.to_string())
        .arg(program)
        .env_clear();
    unit::program::lines(input.output(&mut shell).ok()?).ok()
}

#[cfg(test)]
mod tests {
    use super::*;

    #[test]
    fn the_count_is_read_from_the_report() {
        assert_eq!(counted("==12== Collected : 160871"), Some(160_871));
        assert_eq!(counted("==12== Events    : Ir"), None);
    }

    #[test]
    fn an_input_lasts_as_long_as_its_value() {
        let input = InputFile::new("lasting", b"0").expect("an input");
        let path = input.path.clone();
        assert_eq!(fs::read(&path).expect("the file"), b"0");
        drop(input);
        assert!(!path.exists());
    }

    #[test]
    fn the_smallest_stack_limit_is_found() {
        let least = |script: &str| {
            let input = InputFile::new("stack-limit", script.as_bytes()).expect("an input");
            stack_kib(Path::new("/bin/sh"), &input, "enough")
        };
        assert_eq!(
            least("test $(ulimit -s) -ge 1001 && echo enough"),
            Some(1_004)
        );
        assert_eq!(
            least("test $(ulimit -s) -ge 8192 && echo enough"),
            Some(8_192)
        );
        assert_eq!(least("test $(ulimit -s) -ge 8193 && echo enough"), None);
        assert_eq!(least("echo something else"), None);
    }
}
