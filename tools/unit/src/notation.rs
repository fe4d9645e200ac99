//! Reads a term with indices from text. The grammar stands in docs/NOTATION.md.

use std::str::FromStr;

use crate::draft::Draft;
use crate::limits::{MAX_BOUND, MAX_INDEX, MAX_NUMERAL};
use crate::term::{Node, Term};
use crate::text::{any_of, number, quoted, Cursor, TextError};
use crate::word::COUNTS;

/// What an item begins with.
const ITEM: [&str; 6] = ["an index", "`(`", "`\\`", "`#`", "`?`", "`%`"];

impl FromStr for Term {
    type Err = TextError;

    fn from_str(text: &str) -> Result<Term, TextError> {
        let mut reader = Reader {
            cursor: Cursor::new(text),
            draft: Draft::default(),
            open: Vec::new(),
        };
        reader.open(Within::Text);
        let mut next = Next::Item;
        loop {
            next = match next {
                Next::Item => reader.item()?,
                Next::AfterItem => reader.after_item()?,
                Next::Nothing => break,
            }
        }
        Ok(Term {
            nodes: reader.draft.into_nodes(),
        })
    }
}

/// What is to be read next. After an item the innermost term under way goes on or ends.
enum Next {
    Item,
    AfterItem,
    Nothing,
}

/// What a term under way is part of; `of` is the position of the constructor or case.
#[derive(Clone, Copy)]
enum Within {
    Text,
    Parentheses,
    Abstraction,
    Arguments { of: usize },
    Subject { of: usize },
    Branch { of: usize },
}

/// A term under way.
struct Open {
    within: Within,
    /// The position of its first node.
    start: usize,
    items: usize,
}

struct Reader<'a> {
    cursor: Cursor<'a>,
    draft: Draft,
    /// The terms under way, innermost last.
    open: Vec<Open>,
}

impl Reader<'_> {
    /// Reads an index or numeral whole, and any other item up to its first term, which is then under way.
    fn item(&mut self) -> Result<Next, TextError> {
        let of = self.draft.nodes.len();
        self.cursor.blanks();
        match self.cursor.peek() {
            Some('0'..='9') => {
                let index = self.number("an index", MAX_INDEX)?;
                self.draft.push(Node::Variable { index });
                return Ok(Next::AfterItem);
            }
            Some('%') => {
                self.cursor.advance();
                let value = self.number("a numeral", MAX_NUMERAL)?;
                self.draft.push(Node::Numeral { value });
                return Ok(Next::AfterItem);
            }
            Some('#') => return self.constructor(of),
            Some('(') => {
                self.cursor.advance();
                self.open(Within::Parentheses);
            }
            Some('\\') => {
                self.cursor.advance();
                self.draft.push(Node::Abstraction);
                self.open(Within::Abstraction);
            }
            Some('?') => {
                self.cursor.advance();
                self.draft.push(Node::Case { branches: 0 });
                self.open(Within::Subject { of });
            }
            _ => return Err(self.expected(&any_of(&ITEM))),
        }
        Ok(Next::Item)
    }

    fn constructor(&mut self, of: usize) -> Result<Next, TextError> {
        self.cursor.advance();
        let tag = self.number("a constructor's tag", u32::MAX)?;
        self.draft.push(Node::Constructor { tag, arguments: 0 });
        self.cursor.blanks();
        if !self.cursor.accept('[') {
            return Ok(Next::AfterItem);
        }
        self.cursor.blanks();
        if self.cursor.peek() == Some(']') {
            return Err(self.expected("an argument (without arguments there are no brackets)"));
        }
        self.open(Within::Arguments { of });
        Ok(Next::Item)
    }

    /// A blank and the start of an item lead to a further item; anything else ends the term and must
    /// be what may follow it.
    fn after_item(&mut self) -> Result<Next, TextError> {
        self.cursor.blanks();
        let item = matches!(
            self.cursor.peek(),
            Some('0'..='9' | '(' | '\\' | '#' | '?' | '%')
        );
        if self.cursor.after_blank && item {
            self.open.last_mut().expect("a term is under way").items += 1;
            return Ok(Next::Item);
        }
        match self.close() {
            Within::Text => return self.end(),
            Within::Parentheses => self.after_term(')', &["`)`"])?,
            Within::Abstraction => {}
            Within::Arguments { of } => return self.after_argument(of),
            Within::Subject { of } => return self.after_subject(of),
            Within::Branch { of } => return self.after_branch(of),
        }
        Ok(Next::AfterItem)
    }

    fn end(&mut self) -> Result<Next, TextError> {
        match self.cursor.peek() {
            None => Ok(Next::Nothing),
            Some(_) => Err(self.expected(&self.item_or(&["the end"]))),
        }
    }

    fn after_argument(&mut self, of: usize) -> Result<Next, TextError> {
        if let Node::Constructor { arguments, .. } = &mut self.draft.nodes[of] {
            *arguments += 1;
        }
        if self.cursor.accept(',') {
            self.open(Within::Arguments { of });
            return Ok(Next::Item);
        }
        self.after_term(']', &["`,`", "`]`"])?;
        Ok(Next::AfterItem)
    }

    fn after_subject(&mut self, of: usize) -> Result<Next, TextError> {
        self.after_term('{', &["`{`"])?;
        self.cursor.blanks();
        match self.cursor.peek() {
            Some('0'..='9' | '_') => self.branch(of),
            _ => {
                self.expect('}', "a branch's tag, `_` or `}`")?;
                Ok(Next::AfterItem)
            }
        }
    }

    fn after_branch(&mut self, of: usize) -> Result<Next, TextError> {
        if self.cursor.accept(',') {
            self.cursor.blanks();
            return self.branch(of);
        }
        self.after_term('}', &["`,`", "`}`"])?;
        Ok(Next::AfterItem)
    }

    /// Reads a branch up to its body, which is then under way.
    fn branch(&mut self, of: usize) -> Result<Next, TextError> {
        let (tag, bound) = match self.cursor.accept('_') {
            true => (0, 0),
            false => self.tag_and_bound()?,
        };
        self.cursor.blanks();
        self.expect(':', "`:` and the branch's body")?;
        if let Node::Case { branches } = &mut self.draft.nodes[of] {
            *branches += 1;
        }
        self.draft.push(Node::Branch { tag, bound });
        self.open(Within::Branch { of });
        Ok(Next::Item)
    }

    fn tag_and_bound(&mut self) -> Result<(u32, u32), TextError> {
        if !matches!(self.cursor.peek(), Some('0'..='9')) {
            return Err(self.expected("a branch's tag or `_`"));
        }
        let tag = self.number("a branch's tag", u32::MAX / COUNTS)?;
        self.expect('.', "`.` and a bound count")?;
        Ok((tag, self.number("a bound count", MAX_BOUND)?))
    }

    fn open(&mut self, within: Within) {
        let start = self.draft.nodes.len();
        self.open.push(Open {
            within,
            start,
            items: 1,
        });
    }

    /// Ends the innermost term under way: n items are n - 1 applications in front of the first.
    fn close(&mut self) -> Within {
        let term = self.open.pop().expect("a term is under way");
        self.draft.apply(term.start, term.items - 1);
        term.within
    }

    fn number(&mut self, expected: &str, limit: u32) -> Result<u32, TextError> {
        let column = self.cursor.column;
        match self.cursor.all(|character| character.is_ascii_digit()) {
            "" => Err(self.expected(expected)),
            digits => number(digits, column, expected, limit),
        }
    }

    /// What must follow a term that ends here.
    fn after_term(&mut self, character: char, expected: &[&str]) -> Result<(), TextError> {
        let expected = self.item_or(expected);
        self.expect(character, &expected)
    }

    /// What can follow a term, where a further item could too.
    fn item_or(&self, others: &[&str]) -> String {
        match self.cursor.after_blank {
            true => any_of(&[&ITEM, others].concat()),
            false => any_of(&[&["a space"], others].concat()),
        }
    }

    fn expect(&mut self, character: char, expected: &str) -> Result<(), TextError> {
        if self.cursor.accept(character) {
            Ok(())
        } else {
            Err(self.expected(expected))
        }
    }

    fn expected(&self, expected: &str) -> TextError {
        TextError {
            column: self.cursor.column,
            expected: expected.to_string(),
            found: match self.cursor.peek() {
                None => "the end".to_string(),
                Some(' ') => "a space".to_string(),
                Some(other) => quoted(other),
            },
        }
    }
}
