//! A reader of lines by recursive descent into a tree, which is then checked and written as words. It
//! stands in for the program `replay` on scripts that only read lines.

use unit::limits::{MAX_FREE, MAX_INDEX, WORKSPACE};
use unit::word::{word, ABSTRACTION, APPLICATION, VARIABLE};

use super::script::{self, answer, Sides, Words, LINE};

/// The bytes of the longest line.
const LONGEST: usize = 1_024;

/// What is printed for a script.
pub fn transcript(script: &[u8]) -> String {
    script::transcript(script, operate)
}

fn operate(operation: u32, words: &mut Words, sides: &mut Sides) -> Option<String> {
    if operation != LINE {
        return None;
    }
    let side = words.side(sides)?;
    Some(answer("line", read_line(&words.bytes()?, side)))
}

/// Reads a line into a workspace: the term's length, or a refusal's number.
fn read_line(line: &[u8], workspace: &mut [u32]) -> Result<usize, u32> {
    if !WORKSPACE.contains(&workspace.len()) {
        return Err(7);
    }
    let mut reader = Reader { rest: line };
    let term = match line.len() {
        1..=LONGEST => reader.term().filter(|_| reader.rest.is_empty()),
        _ => None,
    };
    let term = term.ok_or(11_u32)?;
    if !term.frees_fit(0) {
        return Err(6);
    }
    let mut words = Vec::new();
    term.write(&mut words);
    let place = workspace.get_mut(..words.len()).ok_or(8_u32)?;
    place.copy_from_slice(&words);
    workspace[words.len()..].fill(0);
    Ok(words.len())
}

enum Term {
    Variable(u32),
    Abstraction(Box<Term>),
    Application(Box<Term>, Box<Term>),
}

impl Term {
    fn frees_fit(&self, binders: u32) -> bool {
        match self {
            Term::Variable(index) => *index <= binders + MAX_FREE,
            Term::Abstraction(body) => body.frees_fit(binders + 1),
            Term::Application(function, argument) => {
                function.frees_fit(binders) && argument.frees_fit(binders)
            }
        }
    }

    fn write(&self, words: &mut Vec<u32>) {
        match self {
            Term::Variable(index) => words.push(word(VARIABLE, *index)),
            Term::Abstraction(body) => {
                words.push(word(ABSTRACTION, 0));
                body.write(words);
            }
            Term::Application(function, argument) => {
                words.push(word(APPLICATION, 0));
                function.write(words);
                argument.write(words);
            }
        }
    }
}

struct Reader<'a> {
    rest: &'a [u8],
}

impl Reader<'_> {
    fn pass(&mut self, byte: u8) -> bool {
        match self.rest.split_first() {
            Some((first, rest)) if *first == byte => {
                self.rest = rest;
                true
            }
            _ => false,
        }
    }

    fn term(&mut self) -> Option<Term> {
        let mut term = self.item()?;
        while self.pass(b' ') {
            term = Term::Application(Box::new(term), Box::new(self.item()?));
        }
        Some(term)
    }

    /// An abstraction takes all that follows, so it is the last item wherever it is one.
    fn item(&mut self) -> Option<Term> {
        if self.pass(b'\\') {
            Some(Term::Abstraction(Box::new(self.term()?)))
        } else if self.pass(b'(') {
            let term = self.term()?;
            self.pass(b')').then_some(term)
        } else {
            self.index().map(Term::Variable)
        }
    }

    fn index(&mut self) -> Option<u32> {
        let is_digit = |byte: &&u8| byte.is_ascii_digit();
        let count = self.rest.iter().take_while(is_digit).count();
        let (digits, rest) = self.rest.split_at(count);
        self.rest = rest;
        if digits.is_empty() || (digits[0] == b'0' && count > 1) {
            return None;
        }
        digits.iter().try_fold(0, |index, digit| {
            let index = 10 * index + u32::from(digit - b'0');
            (index <= MAX_INDEX).then_some(index)
        })
    }
}
