//! The two notations of terms.

use crate::place;
use unit::characters::is_format;
use unit::{quoted, NameError, Names, Printed, Term, TextError};

/// Around the bits of an encoding, which may stand for a whole term in either notation.
const OPEN: char = '<';
const CLOSE: char = '>';
pub const BLANKS: [char; 4] = [' ', '\t', '\n', '\r'];

/// Of more free names no doubts are said.
const DOUBTED: usize = 64;

pub enum Notation {
    Indices,
    Named(Box<Names>),
}

/// What is wrong with a text, and where.
#[derive(Clone, Debug, PartialEq, Eq)]
pub struct Fault {
    /// Counted in characters from 1.
    pub column: usize,
    pub reason: String,
}

impl Fault {
    /// The fault of a text with a name: its line, column and reason, and below them the place.
    pub fn told(&self, name: &str, text: &str) -> String {
        let (line, column, text) = place::line_of(text, self.column);
        told(name, line, column, &self.reason, text)
    }

    /// The fault of a line of a file.
    pub fn told_on(&self, file: &str, line: usize, text: &str) -> String {
        told(file, line, self.column, &self.reason, text)
    }

    fn with(self, hint: &str) -> Fault {
        let reason = self.reason + hint;
        Fault { reason, ..self }
    }
}

fn told(name: &str, line: usize, column: usize, reason: &str, text: &str) -> String {
    let place = place::marked(text, column);
    format!("{name}, line {line}, column {column}: {reason}\n{place}")
}

impl From<NameError> for Fault {
    fn from(error: NameError) -> Fault {
        let NameError { column, reason } = error;
        Fault { column, reason }
    }
}

impl From<TextError> for Fault {
    fn from(error: TextError) -> Fault {
        let TextError {
            column,
            expected,
            found,
        } = error;
        let reason = format!("expected {expected}, found {found}");
        Fault { column, reason }
    }
}

impl Notation {
    /// Reads a term on a line, 0 where the text has none. Names that are free in it are added to `free`.
    pub fn term(&mut self, text: &str, free: &mut Vec<String>, line: usize) -> Result<Term, Fault> {
        if text.trim_start_matches(BLANKS).starts_with(OPEN) {
            return encoded(text);
        }
        let term = match self {
            Notation::Indices => text.parse().map_err(|error: TextError| error.into()),
            Notation::Named(names) => names.term(text, free, line).map_err(Fault::from),
        };
        term.map_err(|fault| self.hinted(fault, text))
    }

    /// The fault with what may help whoever wrote the text.
    pub fn hinted(&self, fault: Fault, text: &str) -> Fault {
        let found = text.chars().nth(fault.column - 1);
        let hint = found.and_then(|found| self.hint(found, &fault.reason));
        fault.with(hint.unwrap_or_default())
    }

    /// What may help where a character cannot stand.
    fn hint(&self, found: char, reason: &str) -> Option<&'static str> {
        let is_named = matches!(self, Notation::Named(_));
        match found {
            '0'..='9' if is_named && reason.contains("a name") => {
                Some("; indices are read without --named")
            }
            '=' if is_named && reason.contains("or the end") => {
                Some("; a declaration starts with `let` or `constructor`")
            }
            _ if !is_named && found.is_alphabetic() => Some("; names are read with --named"),
            '“' | '”' | '‘' | '’' | '′' | '–' | '—' | '！'..='～' => {
                Some("; write the sign of a plain keyboard")
            }
            _ if !found.is_ascii() && found.is_whitespace() => Some("; write a plain space"),
            _ if is_format(found) => Some("; it cannot be seen, take it out"),
            _ => None,
        }
    }

    /// What free names may have been meant to be, where they look like slips of the pen.
    pub fn doubts(&self, free: &[String]) -> Vec<String> {
        match self {
            Notation::Indices => Vec::new(),
            Notation::Named(names) => {
                let free = free.iter().take(DOUBTED);
                free.filter_map(|name| names.doubt(name)).collect()
            }
        }
    }

    /// A term whose free numbers have these names, if the notation has names.
    pub fn printed(&self, term: &Term, free: &[String]) -> Printed {
        match self {
            Notation::Indices => term.printed(),
            Notation::Named(names) => names.printed(term, free),
        }
    }
}

/// The closed term whose encoding is written as `<0010>`, with blanks between bits where one likes.
fn encoded(text: &str) -> Result<Term, Fault> {
    let fault = |column: usize, reason: String| Fault { column, reason };
    let mut bits = Vec::new();
    // The columns of the bits and of what stands behind the last.
    let mut columns = Vec::new();
    let mut rest = (1..)
        .zip(text.chars())
        .filter(|(_, character)| !BLANKS.contains(character))
        .skip(1);
    loop {
        let (column, next) = match rest.next() {
            Some((column, character)) => (column, Some(character)),
            None => (text.chars().count() + 1, None),
        };
        columns.push(column);
        match next {
            Some('0') => bits.push(false),
            Some('1') => bits.push(true),
            Some(CLOSE) => break,
            other => {
                let reason = format!("expected 0, 1 or `>`, found {}", found(other));
                return Err(fault(column, reason));
            }
        }
    }
    if let Some((column, character)) = rest.next() {
        let reason = format!("expected the end, found {}", found(Some(character)));
        return Err(fault(column, reason));
    }
    let term = Term::from_bits(&bits).map_err(|error| {
        let place = error.place.min(columns.len());
        fault(columns[place - 1], error.reason)
    })?;
    match term.bits() {
        Ok(_) => Ok(term),
        Err(_) => Err(fault(
            columns[0],
            "the bits of a term that is not closed".to_string(),
        )),
    }
}

fn found(character: Option<char>) -> String {
    character.map_or("the end".to_string(), quoted)
}
