//! A term typed as a line of text: its notation and the reader.

use crate::press::put;
use crate::refusal::Refusal;
use crate::term::{abs, app, var, Term, LARGEST_INDEX, WORKSPACE};
use std::fmt;
use std::ops::RangeInclusive;

/// Lengths that a line may have, in bytes.
pub const LINE: RangeInclusive<usize> = 1..=1_024;

/// Reads a line into a workspace and returns the term's length.
pub fn read_line(line: &[u8], workspace: &mut [u32]) -> Result<u32, Refusal> {
    if !WORKSPACE.contains(&workspace.len()) {
        return Err(Refusal::Workspace);
    }
    let term = term_of(line).map_err(|_| Refusal::Line)?;
    if !term.frees_fit() {
        return Err(Refusal::FreeNumber);
    }
    if term.size() > workspace.len() {
        return Err(Refusal::TooLong);
    }
    Ok(put(workspace, &term))
}

/// What is wrong with a line, at the first place where something is.
#[derive(Clone, Copy, Debug, PartialEq, Eq)]
pub enum Fault {
    /// Its length.
    Length,
    /// A byte that no line has.
    Byte,
    /// An index with a leading zero or above its limit.
    Number,
    /// A space too many, or one that is missing between two items.
    Space,
    /// A parenthesis without its partner.
    Parenthesis,
    /// An item that is missing.
    Item,
}

pub const FAULTS: [Fault; 6] = [
    Fault::Length,
    Fault::Byte,
    Fault::Number,
    Fault::Space,
    Fault::Parenthesis,
    Fault::Item,
];

impl fmt::Display for Fault {
    fn fmt(&self, f: &mut fmt::Formatter<'_>) -> fmt::Result {
        f.write_str(match self {
            Fault::Length => "its length",
            Fault::Byte => "a byte",
            Fault::Number => "a number",
            Fault::Space => "a space",
            Fault::Parenthesis => "a parenthesis",
            Fault::Item => "a missing item",
        })
    }
}

/// The term of a line, which need not be an accepted one.
pub fn term_of(line: &[u8]) -> Result<Term, Fault> {
    if !LINE.contains(&line.len()) {
        return Err(Fault::Length);
    }
    let mut reader = Reader { line, at: 0 };
    let term = reader.term()?;
    match reader.ahead() {
        None => Ok(term),
        Some(_) => Err(reader.fault_behind_item()),
    }
}

/// A line that is read from the left.
struct Reader<'a> {
    line: &'a [u8],
    at: usize,
}

impl Reader<'_> {
    /// The byte that is read next.
    fn ahead(&self) -> Option<u8> {
        self.line.get(self.at).copied()
    }

    /// Passes the byte if it is next.
    fn pass(&mut self, byte: u8) -> bool {
        let is_next = self.ahead() == Some(byte);
        self.at += usize::from(is_next);
        is_next
    }

    /// One item or more, each applied to the next. The body of an abstraction
    /// takes all items that follow, so that an abstraction is the last one.
    fn term(&mut self) -> Result<Term, Fault> {
        let mut term = self.item()?;
        while self.pass(b' ') {
            term = app(term, self.item()?);
        }
        Ok(term)
    }

    fn item(&mut self) -> Result<Term, Fault> {
        if self.pass(b'\\') {
            return Ok(abs(self.term()?));
        }
        if self.pass(b'(') {
            let term = self.term()?;
            return match self.pass(b')') {
                true => Ok(term),
                false => Err(self.fault_behind_item()),
            };
        }
        match self.ahead() {
            Some(byte) if byte.is_ascii_digit() => self.index(),
            _ => Err(self.fault_before_item()),
        }
    }

    fn index(&mut self) -> Result<Term, Fault> {
        let ahead = &self.line[self.at..];
        let count = ahead.iter().take_while(|byte| byte.is_ascii_digit());
        let digits = &ahead[..count.count()];
        self.at += digits.len();
        let has_leading_zero = digits[0] == b'0' && digits.len() > 1;
        let value = digits.iter().try_fold(0, |value: u32, digit| {
            let value = 10 * value + u32::from(digit - b'0');
            (value <= LARGEST_INDEX).then_some(value)
        });
        match value {
            Some(index) if !has_leading_zero => Ok(var(index)),
            _ => Err(Fault::Number),
        }
    }

    /// What is wrong where an item has to begin and none does.
    fn fault_before_item(&self) -> Fault {
        let before = self.at.checked_sub(1).map(|at| self.line[at]);
        match self.ahead() {
            Some(b' ') => Fault::Space,
            Some(b')') | None if before == Some(b' ') => Fault::Space,
            Some(b')') | None => Fault::Item,
            Some(_) => Fault::Byte,
        }
    }

    /// What is wrong where a line or a parenthesis has to end and does not.
    fn fault_behind_item(&self) -> Fault {
        match self.ahead() {
            Some(b')') | None => Fault::Parenthesis,
            Some(b'(' | b'\\' | b'0'..=b'9') => Fault::Space,
            Some(_) => Fault::Byte,
        }
    }
}
