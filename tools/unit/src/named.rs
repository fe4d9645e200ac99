//! The notation with names: definitions and constructors that a key file declares, and terms that use
//! them. The grammar stands in docs/NOTATION.md.

mod declaration;
mod lexer;
mod near;
mod printer;
mod reader;

use std::collections::HashMap;
use std::fmt;

use crate::print::{written, Printed};
use crate::term::Term;
use crate::text::TextError;
use declaration::Meant;
use lexer::{quoted_word, Lexer, Token};
use printer::ByName;
use reader::Reader;

/// The most words of a term, with every definition in its place.
const MAX_WORDS: usize = 65_536;

/// The most words of all definitions together.
const MAX_DEFINED: usize = 1_048_576;

/// Text that is no term or no declaration: the place, counted in characters from 1, and why.
#[derive(Clone, Debug, PartialEq, Eq)]
pub struct NameError {
    pub column: usize,
    pub reason: String,
}

impl fmt::Display for NameError {
    fn fmt(&self, f: &mut fmt::Formatter) -> fmt::Result {
        write!(f, "column {}: {}", self.column, self.reason)
    }
}

impl From<TextError> for NameError {
    fn from(error: TextError) -> NameError {
        NameError {
            column: error.column,
            reason: format!("expected {}, found {}", error.expected, error.found),
        }
    }
}

/// The definitions and constructors of a key file. A call that fails declares nothing.
#[derive(Clone, Debug, Default)]
pub struct Names {
    declared: HashMap<String, Declared>,
    /// The names that lines declare which were not read yet, or could not be. No term may use them.
    announced: HashMap<String, Announced>,
    /// The name of the constructor with a tag.
    tags: HashMap<u32, String>,
    /// The names that stood for free variables, each with the line where it did first.
    free: HashMap<String, Place>,
    /// The words of all definitions.
    words: usize,
    /// The names of the files that lines were read from; the last is being read.
    files: Vec<String>,
}

/// A line of a file, or of none, with number 0.
#[derive(Clone, Copy, Debug, PartialEq, Eq)]
struct Place {
    /// How many files were begun.
    file: usize,
    line: usize,
}

#[derive(Clone, Debug)]
struct Declared {
    place: Place,
    meaning: Meaning,
}

/// A name that a line declares, which is to come or could not be read.
#[derive(Clone, Copy, Debug)]
struct Announced {
    place: Place,
    is_read: bool,
    is_constructor: bool,
}

#[derive(Clone, Debug)]
enum Meaning {
    /// A term whose free numbers have these names.
    Definition {
        term: Term,
        free: Vec<String>,
    },
    Constructor {
        tag: u32,
        count: usize,
    },
}

impl Names {
    pub fn new() -> Names {
        Names::default()
    }

    /// Whether a line (comment cut off) is a declaration: its first token is `let` or `constructor`.
    pub fn is_declaration(line: &str) -> bool {
        let first = Lexer::new(line).next();
        first.is_ok_and(|token| token.is_word("let") || token.is_word("constructor"))
    }

    /// The lines that are read from here on are those of a file with this name.
    pub fn begin(&mut self, file: &str) {
        self.files.push(file.to_string());
    }

    /// Notes what a line declares that is read later: a term before it must not take the name for free.
    pub fn announce(&mut self, line: &str, number: usize) {
        let meant = Meant::new(line);
        if matches!(meant, Meant::Unclear(_)) {
            return;
        }
        let announced = self.announced(&meant, number, false);
        for &name in meant.names() {
            if !self.declared.contains_key(name) && !self.announced.contains_key(name) {
                self.announced.insert(name.to_string(), announced);
            }
        }
    }

    /// Takes a declaration from the line of this number, or from no line if it is 0. Names that a line
    /// declares wrongly can no longer be used.
    pub fn declare(&mut self, line: &str, number: usize) -> Result<(), NameError> {
        let done = declaration::read(self, line, number);
        if done.is_err() {
            self.revoke(line, number);
        } else {
            for &name in Meant::new(line).names() {
                self.announced.remove(name);
            }
        }
        done
    }

    /// Takes away what a line was meant to declare, since it cannot be read; whether there is something.
    pub fn revoke(&mut self, line: &str, number: usize) -> bool {
        let meant = Meant::new(line);
        let announced = self.announced(&meant, number, true);
        if let Meant::Unclear(name) = meant {
            // With a declared name in front it is more likely a pair without its sign.
            if self.declared.contains_key(name) {
                return false;
            }
        }
        for &name in meant.names() {
            self.announced.insert(name.to_string(), announced);
        }
        !meant.names().is_empty()
    }

    fn announced(&self, meant: &Meant, line: usize, is_read: bool) -> Announced {
        Announced {
            place: self.place(line),
            is_read,
            is_constructor: matches!(meant, Meant::Constructors(_)),
        }
    }

    /// Reads a term from the line of this number, or from no line if it is 0. The names free in it are
    /// added to `free`; their positions there are their free numbers.
    pub fn term(
        &mut self,
        text: &str,
        free: &mut Vec<String>,
        number: usize,
    ) -> Result<Term, NameError> {
        let (term, new) = Reader::new(self, text, free)?.term()?;
        self.use_free(&new, number);
        free.extend(new);
        Ok(term)
    }

    /// The text of a term whose free numbers have these names.
    pub fn printed(&self, term: &Term, free: &[String]) -> Printed {
        written(term, &mut ByName::new(self, free))
    }

    /// What a name that is free may have been meant to be, if it looks so.
    pub fn doubt(&self, free: &str) -> Option<String> {
        near::doubt(self.declared.iter(), free)
    }

    /// The constructor of a name: its tag and how many arguments it takes.
    fn constructor(&self, name: &str) -> Option<(u32, usize)> {
        match self.declared.get(name)?.meaning {
            Meaning::Constructor { tag, count } => Some((tag, count)),
            Meaning::Definition { .. } => None,
        }
    }

    /// Fails if the name that a token stands for, or uses, is declared by a line that was not read, or could
    /// not be.
    fn test(&self, token: Token, name: &str) -> Result<(), NameError> {
        let Some(&Announced { place, is_read, .. }) = self.announced.get(name) else {
            return Ok(());
        };
        let line = self.on_line(place);
        let user = match token.text == name {
            true => String::new(),
            false => format!("; {} uses it", quoted_word(token.text)),
        };
        let name = quoted_word(name);
        Err(token.error(match is_read {
            true => format!("the declaration of {name}{line} cannot be read{user}"),
            false => format!("{name} is declared only{line}, below its use{user}"),
        }))
    }

    /// Fails if a binder has the name of a constructor that was not read, or could not be.
    fn test_binder(&self, token: Token) -> Result<(), NameError> {
        match self.announced.get(token.text) {
            Some(announced) if announced.is_constructor => self.test(token, token.text),
            _ => Ok(()),
        }
    }

    fn place(&self, line: usize) -> Place {
        let file = self.files.len();
        Place { file, line }
    }

    /// Where something was read: the file is named if it is another than the one being read.
    fn on_line(&self, Place { file, line }: Place) -> String {
        match file.checked_sub(1) {
            _ if line == 0 => String::new(),
            Some(place) if file < self.files.len() => {
                format!(" on line {line} of {}", self.files[place])
            }
            _ => format!(" on line {line}"),
        }
    }

    /// Notes that names stood for free variables.
    fn use_free(&mut self, names: &[String], line: usize) {
        let place = self.place(line);
        for name in names {
            if !self.free.contains_key(name) {
                self.free.insert(name.clone(), place);
            }
        }
    }
}
