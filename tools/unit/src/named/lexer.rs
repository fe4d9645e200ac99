//! The tokens of the notation with names.

use super::NameError;
use crate::characters::{is_filler, is_mark};
use crate::text::{cut, number, quoted, Cursor};

/// Words that are no names. The notation has no `in`, but whoever writes it behind a `let` means one.
const RESERVED: [&str; 5] = ["case", "of", "let", "in", "constructor"];

/// The most characters of a name: a definition keeps those that are free in it.
const LONGEST: usize = 255;

/// They join or part the letters on both sides.
const JOINERS: [char; 2] = ['\u{200c}', '\u{200d}'];

/// The sign of a binder, whatever stands around it.
const LAMBDA: char = 'λ';

#[derive(Clone, Copy, PartialEq, Eq)]
pub(super) enum Kind {
    Name,
    Reserved,
    Number,
    /// Any other character, part of the notation or not; `\` for `λ` too, and `→` for `->` too.
    Sign(char),
    End,
}

#[derive(Clone, Copy)]
pub(super) struct Token<'a> {
    pub(super) kind: Kind,
    pub(super) text: &'a str,
    pub(super) column: usize,
}

impl Token<'_> {
    pub(super) fn is(&self, sign: char) -> bool {
        self.kind == Kind::Sign(sign)
    }

    pub(super) fn is_word(&self, word: &str) -> bool {
        self.kind == Kind::Reserved && self.text == word
    }

    /// The number that it is, at most `limit`.
    pub(super) fn number(&self, expected: &str, limit: u32) -> Result<u32, NameError> {
        match self.kind {
            Kind::Number => Ok(number(self.text, self.column, expected, limit)?),
            _ => Err(self.expected(expected)),
        }
    }

    pub(super) fn error(&self, reason: String) -> NameError {
        NameError {
            column: self.column,
            reason,
        }
    }

    pub(super) fn expected(&self, expected: &str) -> NameError {
        self.error(format!("expected {expected}, found {}", self.found()))
    }

    fn found(&self) -> String {
        match self.kind {
            Kind::End => "the end".to_string(),
            Kind::Reserved => format!("the reserved word `{}`", self.text),
            Kind::Number => cut(self.text),
            Kind::Name | Kind::Sign('→') => quoted_word(self.text),
            Kind::Sign(_) => self.text.chars().map(quoted).collect(),
        }
    }
}

/// A name in a message.
pub(super) fn quoted_word(word: &str) -> String {
    format!("`{}`", cut(word))
}

#[derive(Clone)]
pub(super) struct Lexer<'a> {
    cursor: Cursor<'a>,
    /// The last token was a number.
    after_number: bool,
}

impl<'a> Lexer<'a> {
    pub(super) fn new(text: &'a str) -> Lexer<'a> {
        Lexer {
            cursor: Cursor::new(text),
            after_number: false,
        }
    }

    /// Reads the next token.
    pub(super) fn next(&mut self) -> Result<Token<'a>, NameError> {
        self.cursor.blanks();
        let separate = self.cursor.after_blank || !self.after_number;
        let start = self.cursor.clone();
        let kind = self.kind();
        let token = Token {
            kind,
            text: start.to(&self.cursor),
            column: start.column,
        };
        self.after_number = kind == Kind::Number;
        match kind {
            // A name with it in front would be taken for two binders.
            Kind::Sign('_') if self.cursor.peek().is_some_and(is_in_name) => {
                Err(token.error("a name begins with a letter, and `_` stands alone".to_string()))
            }
            Kind::Name if token.text.chars().nth(LONGEST).is_some() => {
                Err(token.error(format!("a name has at most {LONGEST} characters")))
            }
            Kind::Name if token.text.ends_with(JOINERS) => {
                Err(token.error("a name does not end in a joiner, which is not seen".to_string()))
            }
            Kind::Name | Kind::Reserved if !separate => {
                Err(token.expected("a space behind the number"))
            }
            _ => Ok(token),
        }
    }

    /// Reads a token and says what it is.
    fn kind(&mut self) -> Kind {
        let Some(first) = self.cursor.peek() else {
            return Kind::End;
        };
        if first.is_ascii_digit() {
            self.cursor.all(|character| character.is_ascii_digit());
            return Kind::Number;
        }
        if begins_name(first) {
            return match RESERVED.contains(&self.cursor.all(is_in_name)) {
                true => Kind::Reserved,
                false => Kind::Name,
            };
        }
        self.cursor.advance();
        match first {
            LAMBDA => Kind::Sign('\\'),
            '-' if self.cursor.accept('>') => Kind::Sign('→'),
            other => Kind::Sign(other),
        }
    }
}

fn begins_name(character: char) -> bool {
    character.is_alphabetic() && is_in_name(character) && !is_mark(character)
}

/// Letters, numbers, marks, `_`, `'` and the two signs that join or part letters. What is never seen would
/// make two names of one.
fn is_in_name(character: char) -> bool {
    match character {
        LAMBDA => false,
        // Marks that are not seen themselves, or choose how the one before is drawn.
        '\u{34f}' | '\u{17b4}' | '\u{17b5}' | '\u{180b}'..='\u{180f}' => false,
        '\u{fe00}'..='\u{fe0f}' => false,
        '\u{e0100}'..='\u{e01ef}' => false,
        '_' | '\'' => true,
        joiner if JOINERS.contains(&joiner) => true,
        _ if is_filler(character) => false,
        _ => character.is_alphanumeric() || is_mark(character),
    }
}
