//! The unit's calls alone, and importing and exporting beside their peers: the archive for C, linked
//! to a program that measures its stack and its time.

use std::fs;
use std::path::{Path, PathBuf};
use std::process::Command;

use crate::cases::{Case, C};
use crate::encodings::{EachCall, Encoding, CALLS};
use crate::lines::Line;
use crate::measure::{input_file, spent};
use crate::run::{difference, lines_of};
use crate::times::{resolved, Estimate, REPETITIONS};

const PROGRAM: &str = include_str!("../probe/main.rs");

/// Bytes of machine stack.
#[derive(Clone, Copy, Debug, PartialEq, Eq)]
pub struct Stack {
    pub press: usize,
    pub show: usize,
    /// Of the left side's table.
    pub load: usize,
    pub write: usize,
}

/// The program that measures.
pub struct Probe {
    pub(crate) program: PathBuf,
}

impl Probe {
    /// Builds the archive and the program below the repository's target/.
    pub fn build(root: &Path) -> Result<Probe, String> {
        let folder = root.join("target/probe");
        let source = folder.join("main.rs");
        let written = fs::create_dir_all(&folder).and_then(|()| fs::write(&source, PROGRAM));
        written.map_err(|error| format!("{}: {error}", folder.display()))?;
        succeed(&mut Command::new(root.join("firmware/build")))?;
        succeed(&mut rust_library(root, &folder, "unit"))?;
        succeed(rust_library(root, &folder, "bench").args(["--extern", "unit"]))?;
        let program = folder.join("probe");
        let mut rustc = rustc(&folder);
        rustc.args([
            "-C",
            "lto",
            "--extern",
            "bench",
            "-l",
            "static=firmware",
            "-L",
        ]);
        rustc.arg(root.join("target/staticlib")).arg("-o");
        succeed(rustc.arg(&program).arg(source))?;
        Ok(Probe { program })
    }

    /// Measures a case with a budget; both calls are as the unit's programs make them.
    pub fn measure(&self, case: &Case, budget: u32, line: &str) -> Result<Stack, String> {
        let printed = self.printed(&case.words(budget))?;
        read(&printed, line).ok_or_else(|| format!("the probe printed `{printed}` for `{line}`"))
    }

    /// Measures reading a line, in bytes.
    pub fn measure_line(&self, line: &Line) -> Result<usize, String> {
        let printed = self.printed(&line.words())?;
        read_line(&printed, line.length())
            .ok_or_else(|| format!("the probe printed `{printed}` for a line"))
    }

    /// The machine stack of each call on an encoding, in bytes.
    pub fn encoding_stack(&self, encoding: &Encoding) -> Result<EachCall<usize>, String> {
        let batches = self.batches(encoding, Measure::Stack, 1, ONCE)?;
        Ok(batches[0])
    }

    /// The seconds of each call on an encoding.
    pub fn encoding_times(
        &self,
        encoding: &Encoding,
    ) -> Result<EachCall<Option<Estimate>>, String> {
        let count = TIMED_BITS.div_ceil(encoding.bits);
        let batches = REPETITIONS * TIMED_BATCHES;
        let batches = self.batches(
            encoding,
            Measure::Nanoseconds,
            batches,
            [count; CALLS.len()],
        )?;
        Ok(std::array::from_fn(|call| {
            let shortest = |batches: &[EachCall<usize>]| {
                let batches = batches.iter().map(|batch| batch[call]);
                batches.min().unwrap_or(0) as f64 * 1e-9 / count as f64
            };
            let mut seconds: Vec<f64> = batches.chunks(TIMED_BATCHES).map(shortest).collect();
            resolved(&mut seconds)
        }))
    }

    /// The instructions of each call on an encoding: what a run with one call more has more.
    pub fn encoding_instructions(&self, encoding: &Encoding) -> Result<EachCall<u64>, String> {
        let once = input_file("once", &encoding_words(encoding, Measure::Nothing, 1, ONCE))?;
        let mut instructions = [0; CALLS.len()];
        for (call, instructions) in instructions.iter_mut().enumerate() {
            let mut counts = ONCE;
            counts[call] += 1;
            let more = input_file(
                "more",
                &encoding_words(encoding, Measure::Nothing, 1, counts),
            )?;
            *instructions = difference(&self.program, &more, &once)?;
        }
        Ok(instructions)
    }

    /// What is measured of batches of the calls on an encoding, each call so often in a batch.
    fn batches(
        &self,
        encoding: &Encoding,
        measure: Measure,
        batches: usize,
        counts: EachCall<usize>,
    ) -> Result<Vec<EachCall<usize>>, String> {
        let printed = self.printed(&encoding_words(encoding, measure, batches, counts))?;
        let measured = read_batches(&printed).filter(|measured| measured.len() == batches);
        measured.ok_or_else(|| format!("the probe printed `{printed}` for an encoding"))
    }

    fn printed(&self, words: &[u8]) -> Result<String, String> {
        let (printed, _) = lines_of(&self.program, &input_file("probe", words)?)?;
        Ok(printed)
    }
}

/// What the program measures of a batch of calls.
#[derive(Clone, Copy)]
enum Measure {
    Nothing,
    Stack,
    Nanoseconds,
}

const ONCE: EachCall<usize> = [1; CALLS.len()];

/// About as many bits as a batch has that is timed, and the batches that one time is the shortest of.
pub const TIMED_BITS: usize = 1_000_000;
const TIMED_BATCHES: usize = 20;

/// What the program reads of an encoding.
fn encoding_words(
    encoding: &Encoding,
    measure: Measure,
    batches: usize,
    counts: EachCall<usize>,
) -> Vec<u8> {
    let mut words = vec![2, measure as u32, batches as u32];
    words.extend(counts.map(|count| count as u32));
    words.push(encoding.bits as u32);
    words.extend(brought(&encoding.bytes, &encoding.words));
    words.into_iter().flat_map(u32::to_le_bytes).collect()
}

/// What the program reads of a line as of an encoding: C, the bytes, a word each, and the words of
/// the term.
pub fn brought(bytes: &[u8], term: &[u32]) -> Vec<u32> {
    let mut words = vec![C, bytes.len() as u32];
    words.extend(bytes.iter().map(|byte| u32::from(*byte)));
    words.push(term.len() as u32);
    words.extend(term);
    words
}

/// The numbers of each batch.
fn read_batches(printed: &str) -> Option<Vec<EachCall<usize>>> {
    let numbers: Option<Vec<usize>> = printed.split(' ').map(|n| n.parse().ok()).collect();
    let numbers = numbers?;
    let (batches, rest) = numbers.as_chunks();
    rest.is_empty().then(|| batches.to_vec())
}

/// What the program measured of a line, if the term has so many words.
fn read_line(printed: &str, words: usize) -> Option<usize> {
    let (length, stack) = printed.split_once(' ')?;
    let is_read = length.parse() == Ok(words);
    stack.parse().ok().filter(|_| is_read)
}

/// What the program measured, if it made the line's contractions.
fn read(printed: &str, line: &str) -> Option<Stack> {
    let numbers: Option<Vec<usize>> = printed.split(' ').map(|n| n.parse().ok()).collect();
    match numbers.as_deref() {
        Some(&[made, press, show, load, write]) if made == spent(line) as usize => Some(Stack {
            press,
            show,
            load,
            write,
        }),
        _ => None,
    }
}

/// The compiler, with the options by which Cargo compiles the peers.
fn rustc(folder: &Path) -> Command {
    let mut rustc = Command::new("rustc");
    rustc.args(["-O", "-C", "codegen-units=1", "--edition", "2021", "-L"]);
    rustc.arg(folder);
    rustc
}

/// Compiles a library of the tools.
fn rust_library(root: &Path, folder: &Path, name: &str) -> Command {
    let mut rustc = rustc(folder);
    rustc.args(["--crate-type", "rlib", "--crate-name", name, "--out-dir"]);
    let source = root.join("tools").join(name).join("src/lib.rs");
    rustc.arg(folder).arg(source);
    rustc
}

fn succeed(command: &mut Command) -> Result<(), String> {
    let output = command
        .output()
        .map_err(|error| format!("{command:?}: {error}"))?;
    if output.status.success() {
        return Ok(());
    }
    let said = [output.stdout, output.stderr].concat();
    Err(format!(
        "{command:?} failed:\n{}",
        String::from_utf8_lossy(&said)
    ))
}

#[cfg(test)]
mod tests {
    use super::*;

    #[test]
    fn the_stack_of_each_call_is_read() {
        let stack = Stack {
            press: 10,
            show: 20,
            load: 30,
            write: 40,
        };
        assert_eq!(read("2 10 20 30 40", "Same 2 1 1"), Some(stack));
        assert_eq!(read("2 10 20 30 40", "Same 3 1 1"), None);
        assert_eq!(read("2 10 20 30", "Same 2 1 1"), None);
        assert_eq!(read("Refused 9", "Same 2 1 1"), None);
    }

    #[test]
    fn each_batch_has_a_number_for_each_call() {
        let batches = vec![[1, 2, 3, 4], [5, 6, 7, 8]];
        assert_eq!(read_batches("1 2 3 4 5 6 7 8"), Some(batches));
        assert_eq!(read_batches("1 2 3 4 5"), None);
        assert_eq!(read_batches("1 2 3 x"), None);
        assert_eq!(read_batches(""), None);
    }

    #[test]
    fn an_encoding_is_told_with_its_calls() {
        let encoding = Encoding {
            shape: "S",
            is_longest: true,
            bytes: vec![1, 122, 116],
            bits: 23,
            words: vec![1, 1, 1, 2, 2, 16, 0, 2, 8, 0],
        };
        let told = [2, 1, 5, 6, 7, 8, 9, 23, C, 3, 1, 122, 116, 10];
        let words = [&told[..], &encoding.words].concat();
        let bytes: Vec<u8> = words.into_iter().flat_map(u32::to_le_bytes).collect();
        assert_eq!(
            encoding_words(&encoding, Measure::Stack, 5, [6, 7, 8, 9]),
            bytes
        );
    }

    #[test]
    fn the_stack_of_reading_a_line_is_read() {
        assert_eq!(read_line("3 100", 3), Some(100));
        assert_eq!(read_line("4 100", 3), None);
        assert_eq!(read_line("3", 3), None);
    }
}
