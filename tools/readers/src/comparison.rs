//! Scripts of many lines, and their transcripts against what the text command's reader tells.

use std::fmt;
use std::str::Lines;

use crate::expected::{Expected, TextReader};
use crate::line::line;

/// The words of each workspace: no line's term has more, since each of its words takes a byte.
const CAPACITY: usize = 1_024;
/// Lines of one script.
const TOGETHER: u64 = 50;
/// Each kind of answer has to come up so often.
const LEAST: usize = 300;

/// Operations of a script.
const PRINT: u32 = 7;
const LINE: u32 = 8;

/// The start of the row with a side's workspace, in the order of the sides.
const SIDES: [&str; 2] = ["left", "right"];

/// How often each kind of answer came up.
#[derive(Clone, Debug, Default, PartialEq, Eq)]
pub struct Counts {
    pub accepted: usize,
    pub free_number: usize,
    pub no_term: usize,
    pub outside: usize,
}

impl Counts {
    fn count(&mut self, expected: &Expected) {
        *match expected {
            Expected::Accepted(_) => &mut self.accepted,
            Expected::FreeNumber => &mut self.free_number,
            Expected::NoTerm => &mut self.no_term,
            Expected::Outside => &mut self.outside,
        } += 1;
    }

    fn kinds(&self) -> [(&'static str, usize); 4] {
        [
            ("accepted", self.accepted),
            ("refused by 6", self.free_number),
            ("refused by 11 in the common notation", self.no_term),
            ("refused by 11 outside it", self.outside),
        ]
    }

    /// What came up too seldom for a comparison that means something.
    pub fn too_few(&self) -> Option<String> {
        let few = self.kinds().into_iter().filter(|(_, seen)| *seen < LEAST);
        let few: Vec<String> = few
            .map(|(kind, seen)| format!("{kind} ({seen} of {LEAST})"))
            .collect();
        (!few.is_empty()).then(|| format!("seen too seldom: {}", few.join(", ")))
    }
}

impl fmt::Display for Counts {
    fn fmt(&self, f: &mut fmt::Formatter) -> fmt::Result {
        for (kind, seen) in self.kinds() {
            writeln!(f, "{seen:>7} {kind}")?;
        }
        Ok(())
    }
}

/// Compares a reader of text with the unit's reader on so many lines. `replay` gives the transcript
/// of a script. The error is the first difference.
pub fn compare(
    cases: u64,
    seed: u64,
    read: TextReader,
    mut replay: impl FnMut(&[u8]) -> Result<String, String>,
) -> Result<Counts, String> {
    let mut counts = Counts::default();
    for first in (0..cases).step_by(TOGETHER as usize) {
        let cases = first..cases.min(first + TOGETHER);
        let lines: Vec<Vec<u8>> = cases.map(|case| line(seed, case, CAPACITY)).collect();
        let named = |reason: String| format!("from case {first} of seed {seed} on: {reason}");
        let text = replay(&script(&lines)).map_err(named)?;
        follow(&lines, read, &text, &mut counts).map_err(named)?;
    }
    Ok(counts)
}

/// Reads the lines, one into each side, and prints what is left in both before the next two.
fn script(lines: &[Vec<u8>]) -> Vec<u8> {
    let mut words = vec![CAPACITY as u32; SIDES.len()];
    for lines in lines.chunks(SIDES.len()) {
        for (side, line) in (0..).zip(lines) {
            words.extend([LINE, side, line.len() as u32]);
            words.extend(line.iter().map(|byte| u32::from(*byte)));
        }
        words.push(PRINT);
    }
    words.into_iter().flat_map(u32::to_le_bytes).collect()
}

/// Goes through the transcript beside the workspaces as they have to be.
fn follow(
    lines: &[Vec<u8>],
    read: TextReader,
    text: &str,
    counts: &mut Counts,
) -> Result<(), String> {
    let mut rows = text.lines();
    let mut workspaces = [[0; CAPACITY]; SIDES.len()];
    for lines in lines.chunks(SIDES.len()) {
        for (line, workspace) in lines.iter().zip(&mut workspaces) {
            let expected = Expected::of(line, read);
            if let Expected::Accepted(words) = &expected {
                workspace.fill(0);
                workspace[..words.len()].copy_from_slice(words);
            }
            take(&mut rows, &expected.printed(), line)?;
            counts.count(&expected);
        }
        for (side, workspace) in workspaces.iter().enumerate() {
            let words = workspace.iter().map(|word| format!(" {word}"));
            let row = SIDES[side].to_string() + &words.collect::<String>();
            // The last line may have no other beside it.
            take(&mut rows, &row, lines.get(side).unwrap_or(&lines[0]))?;
        }
        // The scratch and the session.
        rows.next();
        rows.next();
    }
    match rows.next() {
        None => Ok(()),
        Some(row) => Err(format!("more than was asked for: {}", shown(row))),
    }
}

/// Takes the row that is expected. The error names the line that it comes from.
fn take(rows: &mut Lines, expected: &str, line: &[u8]) -> Result<(), String> {
    let printed = rows.next().unwrap_or("(end of output)");
    if printed == expected {
        return Ok(());
    }
    let (expected, printed) = parted(expected, printed);
    Err(format!(
        "difference in the line `{}`\nby the text command: {expected}\nby replay:           {printed}",
        line.escape_ascii()
    ))
}

/// Both rows, from the first field in which they differ where they are long.
fn parted(expected: &str, printed: &str) -> (String, String) {
    let pairs = expected.split(' ').zip(printed.split(' '));
    let alike = pairs.take_while(|(one, other)| one == other).count();
    let part = |row: &str| {
        let mut fields = row.split(' ');
        let name = fields.next().unwrap_or(row);
        let rest: Vec<&str> = fields.skip(alike.max(1) - 1).collect();
        match alike {
            0 | 1 => shown(row),
            _ => format!(
                "{name} from word {} on: {}",
                alike - 1,
                shown(&rest.join(" "))
            ),
        }
    };
    (part(expected), part(printed))
}

/// The start of a row.
fn shown(row: &str) -> String {
    /// Characters that are shown.
    const SHOWN: usize = 60;
    match row.char_indices().nth(SHOWN) {
        Some((end, _)) => format!("{}..", &row[..end]),
        None => row.to_string(),
    }
}
