//! Declarations of definitions and constructors.

use std::slice;

use super::lexer::{quoted_word, Kind, Lexer, Token};
use super::near::is_near;
use super::reader::Reader;
use super::{Declared, Meaning, NameError, Names, MAX_DEFINED};
use crate::limits::{MAX_ARGUMENTS, TAGS};

/// Reads a declaration and adds it to the names.
pub(super) fn read(names: &mut Names, line: &str, number: usize) -> Result<(), NameError> {
    let mut lexer = Lexer::new(line);
    let first = lexer.next()?;
    if first.is_word("let") {
        definition(names, lexer, number)
    } else if first.is_word("constructor") {
        constructors(names, lexer, number)
    } else {
        Err(first.expected("`let` or `constructor`"))
    }
}

/// What a line declares, or was meant to declare where it cannot be read.
pub(super) enum Meant<'a> {
    Definition(Option<&'a str>),
    Constructors(Vec<&'a str>),
    /// As in `f x = y` and `f := y`, unless it is a pair.
    Unclear(&'a str),
    Nothing,
}

impl<'a> Meant<'a> {
    pub(super) fn new(line: &'a str) -> Meant<'a> {
        let tokens = tokens(line);
        let is_name = |token: &&Token| token.kind == Kind::Name && token.text != "rec";
        let has_sign = tokens.iter().any(|token| token.is('='));
        match tokens.split_first() {
            Some((first, rest)) if is_like(first.text, &DEFINING) => {
                Meant::Definition(rest.iter().find(is_name).map(|name| name.text))
            }
            Some((first, rest)) if is_like(first.text, &CONSTRUCTING) => {
                Meant::Constructors(rest.iter().filter(is_name).map(|name| name.text).collect())
            }
            Some((first, _)) if first.kind == Kind::Name && has_sign => Meant::Unclear(first.text),
            _ => Meant::Nothing,
        }
    }

    pub(super) fn names(&self) -> &[&'a str] {
        match self {
            Meant::Definition(name) => name.as_slice(),
            Meant::Constructors(names) => names,
            Meant::Unclear(name) => slice::from_ref(name),
            Meant::Nothing => &[],
        }
    }
}

/// Words that begin declarations, here or elsewhere.
const DEFINING: [&str; 4] = ["let", "letrec", "def", "define"];
const CONSTRUCTING: [&str; 2] = ["constructor", "data"];

/// Whether a word was meant to be one of these.
fn is_like(word: &str, meant: &[&str]) -> bool {
    meant
        .iter()
        .any(|meant| word == *meant || is_near(word, meant))
}

/// The tokens of a line, but for what is none.
fn tokens(line: &str) -> Vec<Token<'_>> {
    let mut lexer = Lexer::new(line);
    let mut tokens = Vec::new();
    loop {
        match lexer.next() {
            Ok(token) if token.kind == Kind::End => return tokens,
            Ok(token) => tokens.push(token),
            // The lexer has gone past it.
            Err(_) => {}
        }
    }
}

fn definition(names: &mut Names, mut lexer: Lexer, line: usize) -> Result<(), NameError> {
    let name = new_name(names, &mut lexer)?;
    expect(&mut lexer, '=')?;
    let (term, free) = Reader::definition(names, name.text, lexer)?.term()?;
    let words = names.words + term.length();
    if words > MAX_DEFINED {
        let reason = format!("all definitions together have more than {MAX_DEFINED} words");
        return Err(name.error(reason));
    }
    names.words = words;
    names.use_free(&free, line);
    let meaning = Meaning::Definition { term, free };
    let place = names.place(line);
    let declared = Declared { place, meaning };
    names.declared.insert(name.text.to_string(), declared);
    Ok(())
}

fn constructors(names: &mut Names, lexer: Lexer, line: usize) -> Result<(), NameError> {
    let mut added = Vec::new();
    let done = add_constructors(names, lexer, line, &mut added);
    if done.is_err() {
        for tag in added {
            let name = names.tags.remove(&tag);
            names.declared.remove(&name.expect("a tag was added"));
        }
    }
    done
}

/// Adds constructors to the names, and their tags to `added`, up to the end or an error.
fn add_constructors(
    names: &mut Names,
    mut lexer: Lexer,
    line: usize,
    added: &mut Vec<u32>,
) -> Result<(), NameError> {
    loop {
        let name = new_name(names, &mut lexer)?;
        expect(&mut lexer, '=')?;
        let tag_token = lexer.next()?;
        let tag = tag_token.number("a tag", *TAGS.end())?;
        expect(&mut lexer, '.')?;
        let count = lexer
            .next()?
            .number("a count of arguments", MAX_ARGUMENTS)?;
        test_tag(names, tag_token, tag)?;
        let meaning = Meaning::Constructor {
            tag,
            count: count as usize,
        };
        let place = names.place(line);
        let declared = Declared { place, meaning };
        names.declared.insert(name.text.to_string(), declared);
        names.tags.insert(tag, name.text.to_string());
        added.push(tag);
        let next = lexer.next()?;
        match next.kind {
            Kind::Sign(',') => {}
            Kind::End => return Ok(()),
            _ => return Err(next.expected("`,` or the end")),
        }
    }
}

/// A name that means nothing so far.
fn new_name<'a>(names: &Names, lexer: &mut Lexer<'a>) -> Result<Token<'a>, NameError> {
    let token = lexer.next()?;
    if token.kind != Kind::Name {
        return Err(token.expected("a name"));
    }
    let name = quoted_word(token.text);
    if let Some(declared) = names.declared.get(token.text) {
        let line = names.on_line(declared.place);
        return Err(token.error(format!("{name} is already declared{line}")));
    }
    if let Some(&place) = names.free.get(token.text) {
        let line = names.on_line(place);
        return Err(token.error(format!(
            "{name} stands for a free variable{line}; declare it before its first use"
        )));
    }
    Ok(token)
}

/// Fails if the tag is none, or another constructor's.
fn test_tag(names: &Names, token: Token, tag: u32) -> Result<(), NameError> {
    if !TAGS.contains(&tag) {
        return Err(token.expected(&format!("a tag, at least {}", TAGS.start())));
    }
    if let Some(name) = names.tags.get(&tag) {
        let line = names.on_line(names.declared[name].place);
        let name = quoted_word(name);
        return Err(token.error(format!("tag {tag} is already declared{line}, for {name}")));
    }
    Ok(())
}

fn expect(lexer: &mut Lexer, sign: char) -> Result<(), NameError> {
    let token = lexer.next()?;
    match token.is(sign) {
        true => Ok(()),
        false => Err(token.expected(&format!("`{sign}`"))),
    }
}
