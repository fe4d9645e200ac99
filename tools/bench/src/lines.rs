//! Reading lines: the lines, and what is measured of them.

use std::path::PathBuf;

use unit::limits::WORKSPACE;
use unit::Term;

use crate::cases::C;
use crate::measure::{checked, input_file, Bench};
use crate::peers::script::LINE;
use crate::probe::brought;
use crate::run::{difference, stack_kib};

/// The unit's program and its peer, in this order everywhere.
pub const READERS: [&str; 2] = ["replay", "descent"];

/// Something of each program.
pub type EachReader<T> = [T; READERS.len()];

pub type Readers = EachReader<PathBuf>;

/// The bytes of the lines of each shape, multiples of 4 so that each shape has such a line.
pub const LENGTHS: [usize; 3] = [256, 512, LONGEST];
/// The bytes of the longest line.
pub const LONGEST: usize = 1_024;

/// The sides of a script: the first can take every line, the second refuses each by its own length.
const SIDES: [u32; 2] = [C, *WORKSPACE.start() as u32 - 1];

pub struct Line {
    pub shape: &'static str,
    pub text: String,
}

/// A shape and its line of so many bytes.
type Shape = (&'static str, fn(usize) -> String);

const SHAPES: [Shape; 5] = [
    ("indices in a row", |bytes| {
        format!("10{}", " 0".repeat(bytes / 2 - 1))
    }),
    ("free numbers of three digits", |bytes| {
        format!(r"\255{}", " 255".repeat(bytes / 4 - 1))
    }),
    ("abstractions", |bytes| {
        format!("{}0", r"\".repeat(bytes - 1))
    }),
    ("an index in parentheses", |bytes| {
        let depth = bytes / 2 - 1;
        format!("{}10{}", "(".repeat(depth), ")".repeat(depth))
    }),
    ("arguments in parentheses", |bytes| {
        let depth = bytes / 4 - 1;
        format!("{}10 0{}", "0 (".repeat(depth), ")".repeat(depth))
    }),
];

/// Each shape, growing.
pub fn growing_lines() -> Vec<Line> {
    let of_shape = |(shape, text): Shape| {
        LENGTHS.map(|bytes| Line {
            shape,
            text: text(bytes),
        })
    };
    SHAPES.into_iter().flat_map(of_shape).collect()
}

impl Line {
    fn term(&self) -> Term {
        let term = self.text.parse();
        term.expect("the line is written in the notation")
    }

    /// The words of its term.
    pub fn length(&self) -> usize {
        self.term().length()
    }

    /// A script that reads the line into a side.
    fn script(&self, side: u32) -> Vec<u8> {
        let mut words = SIDES.to_vec();
        words.extend([LINE, side, self.text.len() as u32]);
        words.extend(self.text.bytes().map(u32::from));
        words.into_iter().flat_map(u32::to_le_bytes).collect()
    }

    /// What the measuring of the stack reads: 1, then what the line brings.
    pub fn words(&self) -> Vec<u8> {
        let term = self.term().words().expect("the line is within the limits");
        let mut words = vec![1];
        words.extend(brought(self.text.as_bytes(), &term));
        words.into_iter().flat_map(u32::to_le_bytes).collect()
    }
}

/// A line measured.
pub struct LineRow {
    pub shape: &'static str,
    pub bytes: usize,
    pub words: usize,
    /// Instructions of reading the line alone.
    pub instructions: EachReader<u64>,
    /// The machine stack of the unit's call.
    pub stack: usize,
    /// The smallest stack limit that each whole program runs under; of the longest lines only.
    pub limit_kib: EachReader<Option<u32>>,
}

impl Bench {
    /// Measures a line. It is an error if a program prints something else than it must.
    pub fn line(&self, line: &Line) -> Result<LineRow, String> {
        let input = input_file("line", &line.script(0))?;
        let refused = input_file("line-refused", &line.script(1))?;
        let printed = format!("line {}", line.length());
        let mut instructions = [0; READERS.len()];
        for (program, count) in self.readers.iter().zip(&mut instructions) {
            checked(program, &input, &printed)?;
            checked(program, &refused, "refused 7")?;
            *count = difference(program, &input, &refused)?;
        }
        let programs = self.readers.each_ref();
        let is_longest = line.text.len() == LONGEST;
        let limit = |program: &PathBuf| stack_kib(program, &input, &printed);
        Ok(LineRow {
            shape: line.shape,
            bytes: line.text.len(),
            words: line.length(),
            instructions,
            stack: self.probe.measure_line(line)?,
            limit_kib: programs.map(|program| is_longest.then(|| limit(program))?),
        })
    }
}

#[cfg(test)]
mod tests {
    use super::*;
    use crate::peers::descent::transcript;

    #[test]
    fn each_shape_has_its_lengths() {
        let lines = growing_lines();
        assert_eq!(lines.len(), SHAPES.len() * LENGTHS.len());
        for (line, bytes) in lines.iter().zip(LENGTHS.iter().cycle()) {
            assert_eq!(line.text.len(), *bytes, "{}", line.shape);
        }
    }

    #[test]
    fn words_of_the_longest_lines() {
        let lines = growing_lines();
        let longest = lines.iter().filter(|line| line.text.len() == LONGEST);
        let words: Vec<usize> = longest.map(Line::length).collect();
        assert_eq!(words, [1_023, 512, 1_024, 1, 513]);
    }

    #[test]
    fn one_side_reads_and_the_other_refuses() {
        for line in growing_lines() {
            let printed = format!("line {}\n", line.length());
            assert_eq!(transcript(&line.script(0)), printed, "{}", line.shape);
            assert_eq!(transcript(&line.script(1)), "refused 7\n");
        }
    }
}
