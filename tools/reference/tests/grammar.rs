//! The grammar of lines, put together from shorter parts: all lines of a few
//! bytes are in it exactly if the reader takes them, each with one term.

use reference::line::term_of;
use reference::term::{abs, app, var, Term};
use std::collections::HashMap;

/// Lines of one kind and of one length, each with its terms.
type Lines = Vec<(String, Term)>;

/// Lines of each length, from 0 on.
#[derive(Default)]
struct Grammar {
    /// An index, or a term in parentheses.
    items: Vec<Lines>,
    /// An item, or such a spine and one item more.
    spines: Vec<Lines>,
    abstractions: Vec<Lines>,
    /// A spine, an abstraction, or a spine and an abstraction.
    terms: Vec<Lines>,
}

/// What the lines are made of here.
const ALPHABET: [char; 6] = ['0', '1', '\\', '(', ')', ' '];

/// All lists of bytes of a length.
fn all(length: usize, of: &[char]) -> Vec<String> {
    let longer = |lines: Vec<String>, _| {
        let each = lines.iter();
        each.flat_map(|line| of.iter().map(move |byte| format!("{line}{byte}")))
            .collect()
    };
    (0..length).fold(vec![String::new()], longer)
}

/// Indices of so many digits, of 0 and 1 alone.
fn indices(digits: usize) -> Lines {
    let numbers = all(digits, &['0', '1']).into_iter();
    numbers
        .filter(|number| number == "0" || number.starts_with('1'))
        .filter_map(|number| {
            let index: u32 = number.parse().ok()?;
            (index <= 32_767).then(|| (number, var(index)))
        })
        .collect()
}

/// Each line of the first list, a space and each of the second, where both
/// have the length together.
fn applied(functions: &[Lines], arguments: &[Lines], length: usize) -> Lines {
    let mut lines = Vec::new();
    for (first, functions) in functions.iter().enumerate() {
        let rest = length.checked_sub(first + 1);
        let arguments = rest.and_then(|rest| arguments.get(rest));
        for (function, f) in functions {
            for (argument, a) in arguments.into_iter().flatten() {
                lines.push((format!("{function} {argument}"), app(f.clone(), a.clone())));
            }
        }
    }
    lines
}

/// Lines of the lists that are shorter by so many bytes.
fn shorter(lists: &[Lines], length: usize, by: usize) -> impl Iterator<Item = &(String, Term)> {
    let list = length.checked_sub(by).and_then(|length| lists.get(length));
    list.into_iter().flatten()
}

impl Grammar {
    /// Adds the lines of the next length.
    fn grow(&mut self) {
        let length = self.terms.len();
        let mut items = if length > 0 {
            indices(length)
        } else {
            Vec::new()
        };
        let inside = shorter(&self.terms, length, 2);
        items.extend(inside.map(|(line, term)| (format!("({line})"), term.clone())));
        self.items.push(items.clone());
        let spines = [items, applied(&self.spines, &self.items, length)].concat();
        self.spines.push(spines.clone());
        let bodies = shorter(&self.terms, length, 1);
        let bodies = bodies.map(|(line, term)| (format!("\\{line}"), abs(term.clone())));
        let abstractions: Lines = bodies.collect();
        self.abstractions.push(abstractions.clone());
        let last = applied(&self.spines, &self.abstractions, length);
        self.terms.push([spines, abstractions, last].concat());
    }
}

#[test]
fn the_reader_takes_the_lines_of_the_grammar() {
    let mut grammar = Grammar::default();
    grammar.grow();
    assert!(grammar.terms[0].is_empty());
    for length in 1..=7 {
        grammar.grow();
        let lines = &grammar.terms[length];
        let terms: HashMap<&str, &Term> = lines.iter().map(|(line, t)| (&line[..], t)).collect();
        // No line comes about in two ways.
        assert_eq!(terms.len(), lines.len());
        assert!(!lines.is_empty());
        for line in all(length, &ALPHABET) {
            let expected = terms.get(&line[..]).copied();
            assert_eq!(term_of(line.as_bytes()).ok().as_ref(), expected, "{line}");
        }
    }
}

#[test]
fn the_first_lines() {
    let mut grammar = Grammar::default();
    (0..=3).for_each(|_| grammar.grow());
    let lines = |length: usize| {
        let lines = grammar.terms[length].iter().map(|(line, _)| &line[..]);
        let mut lines: Vec<&str> = lines.collect();
        lines.sort_unstable();
        lines
    };
    assert_eq!(lines(1), ["0", "1"]);
    assert_eq!(lines(2), ["10", "11", "\\0", "\\1"]);
    let three = [
        "(0)", "(1)", "0 0", "0 1", "1 0", "1 1", "100", "101", "110", "111", "\\10", "\\11",
        "\\\\0", "\\\\1",
    ];
    assert_eq!(lines(3), three);
}
