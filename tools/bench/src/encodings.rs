//! Importing and exporting encodings: the encodings, and what is measured of them.

use std::path::PathBuf;

use unit::limits::MAX_TABLE;
use unit::Term;

use crate::cases::C;
use crate::measure::{checked, input_file, Bench};
use crate::peers::bitwise;
use crate::peers::script::{EXPORT, IMPORT};
use crate::run::stack_kib;
use crate::times::Estimate;

/// The unit's program and its peer, in this order everywhere.
pub const EXCHANGERS: [&str; 2] = ["replay", "bitwise"];

/// Something of each program.
pub type EachExchanger<T> = [T; EXCHANGERS.len()];

pub type Exchangers = EachExchanger<PathBuf>;

/// The unit's calls and their peers, in this order everywhere.
pub const CALLS: [&str; 4] = ["import", "import by bitwise", "export", "export by bitwise"];

/// Something of each call.
pub type EachCall<T> = [T; CALLS.len()];

pub struct Encoding {
    pub shape: &'static str,
    /// Whether no encoding of its shape is longer.
    pub is_longest: bool,
    pub bytes: Vec<u8>,
    pub bits: usize,
    /// The words of its term.
    pub words: Vec<u32>,
}

/// A shape, its sizes, and the text of its term of such a size.
type Shape = (&'static str, [usize; 3], fn(usize) -> String);

const SHAPES: [Shape; 5] = [
    ("runs of 1,023 ones", [15, 30, 60], |count| {
        under(1_023, &row(count, |_| 1_022))
    }),
    ("runs of 1 to 64 ones", [192, 384, 768], |count| {
        under(64, &row(count, |nth| nth % 64))
    }),
    ("runs of one", [256, 512, 1_024], |count| {
        under(1, &row(count, |_| 0))
    }),
    ("abstractions", [511, 1_023, 2_047], |count| {
        under(count, "0")
    }),
    ("S (S (S ..))", [46, 93, 186], |count| {
        let outer = count - 1;
        format!("{}{S}{}", format!("{S} (").repeat(outer), ")".repeat(outer))
    }),
];

/// The combinator S.
const S: &str = r"(\\\2 0 (1 0))";

fn under(abstractions: usize, body: &str) -> String {
    format!("{}{body}", r"\".repeat(abstractions))
}

/// So many indices in a row.
fn row(count: usize, index: fn(usize) -> usize) -> String {
    let indices: Vec<String> = (0..count).map(|nth| index(nth).to_string()).collect();
    indices.join(" ")
}

/// Each shape, growing.
pub fn growing_encodings() -> Vec<Encoding> {
    let of_shape = |(shape, sizes, text): Shape| {
        let longest = sizes[sizes.len() - 1];
        sizes.map(|size| Encoding::new(shape, size == longest, &text(size)))
    };
    SHAPES.into_iter().flat_map(of_shape).collect()
}

impl Encoding {
    fn new(shape: &'static str, is_longest: bool, text: &str) -> Encoding {
        let term: Term = text.parse().expect("the term is written in the notation");
        let words = term.words().expect("the term is within the limits");
        let mut workspace = words.clone();
        workspace.resize(C as usize, 0);
        let mut bytes = vec![0; MAX_TABLE as usize];
        let bits = bitwise::export(&workspace, words.len(), &mut bytes);
        let bits = bits.expect("the term has an encoding that a script can hold");
        bytes.truncate(bits.div_ceil(8));
        Encoding {
            shape,
            is_longest,
            bytes,
            bits,
            words,
        }
    }

    /// A script that imports the encoding and exports it again.
    fn script(&self) -> Vec<u8> {
        let (bits, count) = (self.bits as u32, self.bytes.len() as u32);
        let mut words = vec![C, C, IMPORT, 0, bits, count];
        words.extend(self.bytes.iter().map(|byte| u32::from(*byte)));
        words.extend([EXPORT, 0, self.words.len() as u32, count]);
        words.into_iter().flat_map(u32::to_le_bytes).collect()
    }

    /// The lines that are printed for it.
    fn lines(&self) -> String {
        let bytes: Vec<String> = self.bytes.iter().map(u8::to_string).collect();
        let (length, bits) = (self.words.len(), self.bits);
        format!("import {length}\nexport {bits} {}", bytes.join(" "))
    }
}

/// An encoding measured.
pub struct EncodingRow {
    pub shape: &'static str,
    pub is_longest: bool,
    pub bits: usize,
    pub bytes: usize,
    pub words: usize,
    /// Instructions of each call alone.
    pub instructions: EachCall<u64>,
    /// Seconds of each call alone.
    pub times: Option<EachCall<Option<Estimate>>>,
    /// The machine stack of each call.
    pub stack: EachCall<usize>,
    /// The smallest stack limit that each whole program runs under; of the longest encodings only.
    pub limit_kib: EachExchanger<Option<u32>>,
}

impl Bench {
    /// Measures an encoding. It is an error if a program prints something else than it must.
    pub fn encoding(&self, encoding: &Encoding) -> Result<EncodingRow, String> {
        let input = input_file("encoding", &encoding.script())?;
        let lines = encoding.lines();
        for program in &self.exchangers {
            checked(program, &input, &lines)?;
        }
        let limit = |program: &PathBuf| stack_kib(program, &input, &lines);
        let times = self.is_timed.then(|| self.probe.encoding_times(encoding));
        Ok(EncodingRow {
            shape: encoding.shape,
            is_longest: encoding.is_longest,
            bits: encoding.bits,
            bytes: encoding.bytes.len(),
            words: encoding.words.len(),
            instructions: self.probe.encoding_instructions(encoding)?,
            times: times.transpose()?,
            stack: self.probe.encoding_stack(encoding)?,
            limit_kib: self
                .exchangers
                .each_ref()
                .map(|program| encoding.is_longest.then(|| limit(program))?),
        })
    }
}

#[cfg(test)]
mod tests {
    use super::*;

    /// 2 bits for each abstraction and each application, and for an index 2 more than it is.
    #[test]
    fn bits_bytes_and_words_of_each_encoding() {
        let runs = |count: usize| {
            (
                2 * 1_023 + 2 * (count - 1) + 1_024 * count,
                1_022 + 2 * count,
            )
        };
        // Each 64 indices have 2 + 3 + .. + 65 bits.
        let mixed = |count: usize| {
            (
                2 * 64 + 2 * (count - 1) + 2_144 * count / 64,
                63 + 2 * count,
            )
        };
        let ones = |count: usize| (2 + 2 * (count - 1) + 2 * count, 2 * count);
        let zeros = |count: usize| (2 * count + 2, count + 1);
        // S has 3 abstractions, 3 applications and the indices 2, 0, 1 and 0.
        let combinators = |count: usize| (23 * count + 2 * (count - 1), 11 * count - 1);
        let expected = [
            [15, 30, 60].map(runs),
            [192, 384, 768].map(mixed),
            [256, 512, 1_024].map(ones),
            [511, 1_023, 2_047].map(zeros),
            [46, 93, 186].map(combinators),
        ]
        .concat();
        let encodings = growing_encodings();
        let measures: Vec<_> = encodings
            .iter()
            .map(|encoding| (encoding.bits, encoding.words.len()))
            .collect();
        assert_eq!(measures, expected);
        for encoding in encodings {
            assert_eq!(
                encoding.bytes.len(),
                encoding.bits.div_ceil(8),
                "{}",
                encoding.shape
            );
        }
    }

    #[test]
    fn the_last_encoding_of_each_shape_is_the_longest() {
        let longest: Vec<_> = growing_encodings()
            .iter()
            .map(|encoding| encoding.is_longest)
            .collect();
        assert_eq!(longest, [false, false, true].repeat(SHAPES.len()));
    }

    #[test]
    fn an_encoding_is_imported_and_exported() {
        let encoding = Encoding::new("S", true, S);
        assert_eq!(encoding.bytes, [1, 122, 116]);
        assert_eq!(encoding.words, [1, 1, 1, 2, 2, 16, 0, 2, 8, 0]);
        assert_eq!(encoding.lines(), "import 10\nexport 23 1 122 116");
        for encoding in growing_encodings().iter().chain([&encoding]) {
            let printed = bitwise::transcript(&encoding.script());
            assert_eq!(printed.trim_end(), encoding.lines(), "{}", encoding.shape);
        }
    }
}
