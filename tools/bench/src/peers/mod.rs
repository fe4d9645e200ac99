//! What the unit is measured beside: programs that read and print what `verdict` does, and two that do
//! some of what `replay` does, one with lines and one with encodings, in plain Rust from the rules.

pub mod bitwise;
pub mod descent;
pub mod flat;
pub mod graph;
pub(crate) mod script;
mod table;

use std::fmt;

use unit::limits::MAX_TABLE;

pub enum Verdict {
    Same,
    Different {
        /// The first position at which the words of the two terms differ.
        position: usize,
    },
    Budget,
    Full,
}

pub struct Answer {
    verdict: Verdict,
    spent: u32,
    left: usize,
    right: usize,
}

impl fmt::Display for Answer {
    fn fmt(&self, f: &mut fmt::Formatter) -> fmt::Result {
        let (name, position) = match self.verdict {
            Verdict::Same => ("Same", None),
            Verdict::Different { position } => ("Different", Some(position)),
            Verdict::Budget => ("Budget", None),
            Verdict::Full => ("Full", None),
        };
        write!(f, "{name} {} {} {}", self.spent, self.left, self.right)?;
        match position {
            Some(position) => write!(f, " {position}"),
            None => Ok(()),
        }
    }
}

struct Request {
    budget: u32,
    c: u32,
    left: Vec<u32>,
    right: Vec<u32>,
}

/// The line for the bytes of standard input, by the way that a request is answered or refused.
fn line(bytes: &[u8], answer: fn(&Request) -> Result<Answer, u32>) -> String {
    match read(bytes) {
        None => "Input".to_string(),
        Some(request) => match answer(&request) {
            Ok(answer) => answer.to_string(),
            Err(number) => format!("Refused {number}"),
        },
    }
}

fn read(bytes: &[u8]) -> Option<Request> {
    if !bytes.len().is_multiple_of(4) {
        return None;
    }
    let words = bytes.chunks_exact(4);
    let mut words = words.map(|word| u32::from_le_bytes([word[0], word[1], word[2], word[3]]));
    let request = Request {
        budget: words.next()?,
        c: words.next()?,
        left: counted(&mut words)?,
        right: counted(&mut words)?,
    };
    words.next().is_none().then_some(request)
}

/// A table after its word count.
fn counted(words: &mut impl Iterator<Item = u32>) -> Option<Vec<u32>> {
    let count = words.next().filter(|&count| count <= MAX_TABLE)?;
    let table: Vec<u32> = words.take(count as usize).collect();
    (table.len() == count as usize).then_some(table)
}
