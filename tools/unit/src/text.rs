//! A place in a text that is read, and what is said of it.

use std::fmt;
use std::str::Chars;

use crate::characters::is_filler;

/// The characters of a word that a message shows.
const SHOWN: usize = 40;

/// Text that is no term: the place, counted in characters from 1, and what could stand there.
#[derive(Clone, Debug, PartialEq, Eq)]
pub struct TextError {
    pub column: usize,
    pub expected: String,
    pub found: String,
}

impl fmt::Display for TextError {
    fn fmt(&self, f: &mut fmt::Formatter) -> fmt::Result {
        write!(
            f,
            "column {}: expected {}, found {}",
            self.column, self.expected, self.found
        )
    }
}

/// What of a text is still to be read.
#[derive(Clone)]
pub(crate) struct Cursor<'a> {
    rest: Chars<'a>,
    pub(crate) column: usize,
    /// The character before is a blank.
    pub(crate) after_blank: bool,
}

impl<'a> Cursor<'a> {
    pub(crate) fn new(text: &'a str) -> Cursor<'a> {
        Cursor {
            rest: text.chars(),
            column: 1,
            after_blank: false,
        }
    }

    pub(crate) fn peek(&self) -> Option<char> {
        self.rest.clone().next()
    }

    pub(crate) fn advance(&mut self) {
        self.rest.next();
        self.column += 1;
        self.after_blank = false;
    }

    /// Reads the character if it comes next.
    pub(crate) fn accept(&mut self, character: char) -> bool {
        let here = self.peek() == Some(character);
        if here {
            self.advance();
        }
        here
    }

    pub(crate) fn blanks(&mut self) {
        while let Some(' ' | '\t' | '\n' | '\r') = self.peek() {
            self.advance();
            self.after_blank = true;
        }
    }

    /// Reads as many characters as are of the kind.
    pub(crate) fn all(&mut self, is_of_kind: impl Fn(char) -> bool) -> &'a str {
        let from = self.clone();
        while self.peek().is_some_and(&is_of_kind) {
            self.advance();
        }
        from.to(self)
    }

    /// The text from here to a later place.
    pub(crate) fn to(&self, later: &Cursor) -> &'a str {
        let text = self.rest.as_str();
        &text[..text.len() - later.rest.as_str().len()]
    }
}

/// The number that digits read at a column write: without leading zeros, at most `limit`.
pub(crate) fn number(
    digits: &str,
    column: usize,
    expected: &str,
    limit: u32,
) -> Result<u32, TextError> {
    let expected = match digits.parse() {
        _ if digits.len() > 1 && digits.starts_with('0') => {
            format!("{expected} without leading zeros")
        }
        Ok(number) if number <= limit => return Ok(number),
        _ => format!("{expected}, at most {limit}"),
    };
    Err(TextError {
        column,
        expected,
        found: cut(digits),
    })
}

/// A character that was found, by its number where nothing of it would be seen.
pub fn quoted(character: char) -> String {
    match character {
        _ if character.is_ascii_graphic() => format!("`{character}`"),
        _ if is_filler(character) => format!("`{}`", character.escape_unicode()),
        _ => format!("`{}`", character.escape_debug()),
    }
}

/// A word that was found, cut where it is long.
pub(crate) fn cut(word: &str) -> String {
    match word.char_indices().nth(SHOWN) {
        Some((end, _)) => format!("{}..", &word[..end]),
        None => word.to_string(),
    }
}

/// The parts of an expectation: `a, b or c`.
pub(crate) fn any_of(parts: &[&str]) -> String {
    match parts {
        [first @ .., last] if !first.is_empty() => format!("{} or {last}", first.join(", ")),
        _ => parts.concat(),
    }
}
