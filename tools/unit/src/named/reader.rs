//! Reads a term. Every walk is a loop: what is open around the place stands in lists.

use std::collections::HashMap;

use super::lexer::{quoted_word, Kind, Lexer, Token};
use super::{Meaning, NameError, Names, MAX_WORDS};
use crate::draft::Draft;
use crate::limits::{MAX_INDEX, MAX_NUMERAL};
use crate::term::{Node, Shape, Term};
use crate::text::{any_of, cut};

/// What an item begins with.
const ITEM: [&str; 5] = ["a name", "`(`", "`\\`", "`%`", "`case`"];

/// What is to be read next. After an item the innermost term under way goes on or ends.
enum Next {
    Item,
    AfterItem,
    Nothing,
}

/// What a term under way is part of.
#[derive(Clone, Copy)]
enum Within {
    Text,
    Parentheses,
    Abstraction { binders: usize },
    Subject,
    Branch { binders: usize },
}

/// A term under way.
struct Open {
    within: Within,
    /// The position of its first node.
    start: usize,
    items: usize,
    /// The first item is a constructor, and the others are its arguments.
    is_constructor: bool,
}

/// A case under way.
struct Case {
    position: usize,
    /// The tags of its branches so far.
    tags: Vec<u32>,
}

pub(super) struct Reader<'a> {
    names: &'a Names,
    /// The name whose definition is read.
    own: Option<&'a str>,
    lexer: Lexer<'a>,
    /// The token that is to be read next.
    token: Token<'a>,
    draft: Draft,
    /// The words of the draft.
    words: usize,
    /// The terms and cases under way, innermost last.
    open: Vec<Open>,
    cases: Vec<Case>,
    scope: Scope<'a>,
    free: Free<'a>,
}

impl<'a> Reader<'a> {
    /// The reader of a term, with names that stood free before it.
    pub(super) fn new(
        names: &'a Names,
        text: &'a str,
        free: &'a [String],
    ) -> Result<Reader<'a>, NameError> {
        Reader::after(names, None, Lexer::new(text), free)
    }

    /// The reader of the term that the name is to stand for.
    pub(super) fn definition(
        names: &'a Names,
        own: &'a str,
        lexer: Lexer<'a>,
    ) -> Result<Reader<'a>, NameError> {
        Reader::after(names, Some(own), lexer, &[])
    }

    fn after(
        names: &'a Names,
        own: Option<&'a str>,
        mut lexer: Lexer<'a>,
        free: &'a [String],
    ) -> Result<Reader<'a>, NameError> {
        Ok(Reader {
            names,
            own,
            token: lexer.next()?,
            lexer,
            draft: Draft::default(),
            words: 0,
            open: Vec::new(),
            cases: Vec::new(),
            scope: Scope::default(),
            free: Free::new(free),
        })
    }

    /// Reads the term, to the end of the text; also gives the names that stand free in it and did not
    /// before.
    pub(super) fn term(mut self) -> Result<(Term, Vec<String>), NameError> {
        self.open(Within::Text);
        let mut next = Next::Item;
        loop {
            next = match next {
                Next::Item => self.item()?,
                Next::AfterItem => self.after_item()?,
                Next::Nothing => break,
            }
        }
        let term = Term {
            nodes: in_tag_order(self.draft.into_nodes()),
        };
        Ok((term, self.free.new))
    }

    /// Reads a name or numeral whole, and any other item up to its first term, which is then under way.
    fn item(&mut self) -> Result<Next, NameError> {
        let token = self.token;
        match token.kind {
            Kind::Name => self.name(token)?,
            Kind::Sign('%') => {
                self.advance()?;
                let value = self.token.number("a numeral", MAX_NUMERAL)?;
                self.push(Node::Numeral { value })?;
            }
            Kind::Sign('(') => {
                self.advance()?;
                self.open(Within::Parentheses);
                return Ok(Next::Item);
            }
            Kind::Sign('\\') => return self.abstraction(),
            Kind::Reserved if token.is_word("case") => return self.case(),
            Kind::Number => {
                let NameError { column, reason } = token.expected(&any_of(&ITEM));
                let hint = "names stand for variables, and a numeral is written";
                return Err(NameError {
                    column,
                    reason: format!("{reason}; {hint} `%{}`", cut(token.text)),
                });
            }
            _ => return Err(token.expected(&any_of(&ITEM))),
        }
        self.advance()?;
        Ok(Next::AfterItem)
    }

    /// Takes a name for what it stands for: a variable bound around it, what was declared, or a free
    /// variable.
    fn name(&mut self, token: Token<'a>) -> Result<(), NameError> {
        if let Some(index) = self.scope.index(token.text) {
            return self.variable(index);
        }
        let names = self.names;
        if self.own == Some(token.text) {
            return Err(token.error(format!(
                "{} is used in its own definition; recursion takes a fixpoint combinator",
                quoted_word(token.text)
            )));
        }
        names.test(token, token.text)?;
        match names.declared.get(token.text).map(|known| &known.meaning) {
            Some(&Meaning::Constructor { tag, count }) => self.constructor(tag, count),
            Some(Meaning::Definition { term, free }) => {
                free.iter().try_for_each(|name| names.test(token, name))?;
                self.put(term, free)
            }
            None => {
                let number = self.free.number(token.text);
                self.variable(self.scope.depth() + number)
            }
        }
    }

    fn variable(&mut self, index: usize) -> Result<(), NameError> {
        let node = self.node(index)?;
        self.push(node)
    }

    /// The variable of an index, if there is one so large.
    fn node(&self, index: usize) -> Result<Node, NameError> {
        match u32::try_from(index) {
            Ok(index) if index <= MAX_INDEX => Ok(Node::Variable { index }),
            _ => Err(self.token.error(format!(
                "{} has index {index} here, and the last one is {MAX_INDEX}",
                quoted_word(self.token.text)
            ))),
        }
    }

    fn constructor(&mut self, tag: u32, arguments: usize) -> Result<(), NameError> {
        let term = self.open.last_mut().expect("a term is under way");
        if term.items > 1 && arguments > 0 {
            return Err(self.token.error(format!(
                "{} with its {} must stand in parentheses here",
                quoted_word(self.token.text),
                count_of(arguments)
            )));
        }
        term.is_constructor |= term.items == 1;
        self.push(Node::Constructor { tag, arguments })
    }

    /// Puts a definition's term in place: the names free in it stay free.
    fn put(&mut self, term: &'a Term, free: &'a [String]) -> Result<(), NameError> {
        self.grow(term.length())?;
        let numbers: Vec<usize> = free.iter().map(|name| self.free.number(name)).collect();
        let depth = self.scope.depth();
        for (node, binders) in term.with_binders() {
            let node = match node {
                Node::Variable { index } if index as usize >= binders => {
                    self.node(numbers[index as usize - binders] + depth + binders)?
                }
                _ => node,
            };
            self.draft.push(node);
        }
        Ok(())
    }

    fn abstraction(&mut self) -> Result<Next, NameError> {
        self.advance()?;
        let mut binders = 0;
        while binders == 0 || !self.token.is('.') {
            let name = self.binder(match binders {
                0 => "a name or `_`",
                _ => "a name, `_` or `.`",
            })?;
            self.push(Node::Abstraction)?;
            self.scope.bind(name);
            binders += 1;
            self.advance()?;
        }
        self.advance()?;
        self.open(Within::Abstraction { binders });
        Ok(Next::Item)
    }

    /// The name that a binder gives, if it gives one.
    fn binder(&self, expected: &str) -> Result<Option<&'a str>, NameError> {
        let token = self.token;
        match token.kind {
            Kind::Sign('_') => Ok(None),
            Kind::Name if self.names.constructor(token.text).is_some() => {
                Err(token.error(format!(
                    "{} is a constructor and cannot be bound",
                    quoted_word(token.text)
                )))
            }
            Kind::Name => {
                self.names.test_binder(token)?;
                Ok(Some(token.text))
            }
            _ => Err(token.expected(expected)),
        }
    }

    fn case(&mut self) -> Result<Next, NameError> {
        let position = self.draft.nodes.len();
        self.push(Node::Case { branches: 0 })?;
        self.advance()?;
        let tags = Vec::new();
        self.cases.push(Case { position, tags });
        self.open(Within::Subject);
        Ok(Next::Item)
    }

    /// The start of an item leads to a further item; anything else ends the term and must be what may
    /// follow it.
    fn after_item(&mut self) -> Result<Next, NameError> {
        let is_item = self.is_item();
        self.check_arguments(is_item)?;
        if is_item {
            return self.further_item();
        }
        let term = self.close();
        match term.within {
            Within::Text if self.token.kind == Kind::End => return Ok(Next::Nothing),
            Within::Text => return Err(self.not_after(&term, &["the end"])),
            Within::Parentheses if self.token.is(')') => self.advance()?,
            Within::Parentheses => return Err(self.not_after(&term, &["`)`"])),
            Within::Abstraction { binders } => self.scope.unbind(binders),
            Within::Subject => return self.after_subject(&term),
            Within::Branch { binders } => {
                self.scope.unbind(binders);
                return self.after_branch(&term);
            }
        }
        Ok(Next::AfterItem)
    }

    fn is_item(&self) -> bool {
        match self.token.kind {
            Kind::Name | Kind::Number | Kind::Sign('(' | '\\' | '%') => true,
            _ => self.token.is_word("case"),
        }
    }

    /// A constructor has all its arguments where its term ends, and no more.
    fn check_arguments(&self, is_item: bool) -> Result<(), NameError> {
        let term = self.open.last().expect("a term is under way");
        let Node::Constructor { tag, arguments } = self.draft.nodes[term.start] else {
            return Ok(());
        };
        if !term.is_constructor {
            return Ok(());
        }
        let (given, takes) = (term.items - 1, count_of(arguments));
        let name = quoted_word(&self.names.tags[&tag]);
        match is_item {
            true if given == arguments => Err(self.token.error(format!(
                "{name} takes {takes}, and this is one more; to apply it, put it in parentheses"
            ))),
            false if given < arguments => Err(self.token.expected(&format!(
                "argument {} of {name}, which takes {takes}",
                given + 1
            ))),
            _ => Ok(()),
        }
    }

    fn further_item(&mut self) -> Result<Next, NameError> {
        let term = self.open.last_mut().expect("a term is under way");
        term.items += 1;
        if !term.is_constructor {
            self.grow(1)?;
        }
        Ok(Next::Item)
    }

    fn after_subject(&mut self, term: &Open) -> Result<Next, NameError> {
        if !self.token.is_word("of") {
            return Err(self.not_after(term, &["`of`"]));
        }
        self.advance()?;
        if !self.token.is('{') {
            return Err(self.token.expected("`{`"));
        }
        self.advance()?;
        match self.token.is('}') {
            true => self.end_case(),
            false => self.branch("a constructor, `_` or `}`"),
        }
    }

    fn after_branch(&mut self, term: &Open) -> Result<Next, NameError> {
        match self.token.kind {
            Kind::Sign('}') => self.end_case(),
            Kind::Sign(';') => {
                self.advance()?;
                self.branch("a constructor or `_`")
            }
            _ => Err(self.not_after(term, &["`;`", "`}`"])),
        }
    }

    fn end_case(&mut self) -> Result<Next, NameError> {
        self.cases.pop();
        self.advance()?;
        Ok(Next::AfterItem)
    }

    /// Reads a branch up to its body, which is then under way.
    fn branch(&mut self, expected: &str) -> Result<Next, NameError> {
        let token = self.token;
        let name = quoted_word(token.text);
        self.names.test(token, token.text)?;
        let (tag, binders) = match token.kind {
            Kind::Sign('_') => (0, 0),
            Kind::Name => self.names.constructor(token.text).ok_or_else(|| {
                token.error(format!("expected {expected}, found {name}, which is none"))
            })?,
            _ => return Err(token.expected(expected)),
        };
        let case = self.cases.last_mut().expect("a case is under way");
        if case.tags.contains(&tag) {
            return Err(token.error(match tag {
                0 => "this case has a default already".to_string(),
                _ => format!("this case has a branch for {name} already"),
            }));
        }
        case.tags.push(tag);
        if let Node::Case { branches } = &mut self.draft.nodes[case.position] {
            *branches += 1;
        }
        self.push(Node::Branch {
            tag,
            bound: binders as u32,
        })?;
        self.advance()?;
        for nth in 1..=binders {
            let binder = self.binder(&format!("a name or `_` for argument {nth} of {name}"))?;
            if binder.is_some() && self.scope.innermost(nth - 1).contains(&binder) {
                let twice = quoted_word(self.token.text);
                return Err(self
                    .token
                    .error(format!("this branch binds {twice} already")));
            }
            self.scope.bind(binder);
            self.advance()?;
        }
        if !self.token.is('→') {
            return Err(self.token.expected(&match tag {
                0 => "`->`".to_string(),
                _ => format!("`->` ({name} takes {})", count_of(binders)),
            }));
        }
        self.advance()?;
        self.open(Within::Branch { binders });
        Ok(Next::Item)
    }

    fn push(&mut self, node: Node) -> Result<(), NameError> {
        self.grow(1)?;
        self.draft.push(node);
        Ok(())
    }

    /// Counts words that the token adds.
    fn grow(&mut self, words: usize) -> Result<(), NameError> {
        self.words += words;
        match self.words > MAX_WORDS {
            true => Err(self.token.error(format!(
                "up to here the term has more than {MAX_WORDS} words"
            ))),
            false => Ok(()),
        }
    }

    fn open(&mut self, within: Within) {
        self.open.push(Open {
            within,
            start: self.draft.nodes.len(),
            items: 1,
            is_constructor: false,
        });
    }

    /// Ends the innermost term under way: n items are n - 1 applications in front of the first.
    fn close(&mut self) -> Open {
        let term = self.open.pop().expect("a term is under way");
        if !term.is_constructor {
            self.draft.apply(term.start, term.items - 1);
        }
        term
    }

    /// What stands here can follow no term, where further items or one of the others could.
    fn not_after(&self, term: &Open, others: &[&str]) -> NameError {
        let items: &[&str] = match term.is_constructor {
            true => &[],
            false => &ITEM,
        };
        self.token.expected(&any_of(&[items, others].concat()))
    }

    fn advance(&mut self) -> Result<(), NameError> {
        self.token = self.lexer.next()?;
        Ok(())
    }
}

/// The binders around a place.
#[derive(Default)]
struct Scope<'a> {
    /// From the outermost on, without the names of those that have none.
    binders: Vec<Option<&'a str>>,
    /// The positions of the binders that give a name.
    levels: HashMap<&'a str, Vec<usize>>,
}

impl<'a> Scope<'a> {
    fn depth(&self) -> usize {
        self.binders.len()
    }

    fn bind(&mut self, binder: Option<&'a str>) {
        let level = self.depth();
        if let Some(name) = binder {
            self.levels.entry(name).or_default().push(level);
        }
        self.binders.push(binder);
    }

    fn innermost(&self, count: usize) -> &[Option<&'a str>] {
        &self.binders[self.binders.len() - count..]
    }

    /// Leaves the innermost binders.
    fn unbind(&mut self, count: usize) {
        for name in self.binders.drain(self.binders.len() - count..).flatten() {
            self.levels.get_mut(name).and_then(Vec::pop);
        }
    }

    /// The index of the innermost binder of a name.
    fn index(&self, name: &str) -> Option<usize> {
        let level = self.levels.get(name)?.last()?;
        Some(self.depth() - 1 - level)
    }
}

/// The free numbers of names.
struct Free<'a> {
    numbers: HashMap<&'a str, usize>,
    /// The names that got a number here, in order.
    new: Vec<String>,
}

impl<'a> Free<'a> {
    fn new(names: &'a [String]) -> Free<'a> {
        Free {
            numbers: names.iter().map(String::as_str).zip(0..).collect(),
            new: Vec::new(),
        }
    }

    fn number(&mut self, name: &'a str) -> usize {
        let next = self.numbers.len();
        *self.numbers.entry(name).or_insert_with(|| {
            self.new.push(name.to_string());
            next
        })
    }
}

fn count_of(arguments: usize) -> String {
    match arguments {
        0 => "no argument".to_string(),
        1 => "1 argument".to_string(),
        _ => format!("{arguments} arguments"),
    }
}

/// The nodes with the branches of each case by rising tags.
fn in_tag_order(nodes: Vec<Node>) -> Vec<Node> {
    let shape = Shape::new(&nodes);
    let tag = |position: &usize| match nodes[*position] {
        Node::Branch { tag, .. } => tag,
        _ => 0,
    };
    let mut ordered = Vec::with_capacity(nodes.len());
    // The positions of the terms and branches to come, the next one last.
    let mut to_come = vec![0];
    while let Some(position) = to_come.pop() {
        ordered.push(nodes[position]);
        let from = to_come.len();
        to_come.extend(shape.children(position));
        if let Node::Case { .. } = nodes[position] {
            to_come[from + 1..].sort_by_key(tag);
        }
        to_come[from..].reverse();
    }
    ordered
}
