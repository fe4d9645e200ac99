//! Writes a term with names.

use std::collections::HashSet;
use std::iter::repeat_n;

use super::Names;
use crate::print::{alone, separated, Notation, Part, Place, Writer};
use crate::term::Node;

/// What binders are called, before numbers are put behind; no reserved word is among these names.
const LETTERS: [&str; 6] = ["x", "y", "z", "u", "v", "w"];

pub(super) struct ByName<'a> {
    names: &'a Names,
    free: &'a [String],
    free_names: HashSet<&'a str>,
    /// The names of the binders by the number of binders around them, as far as they are needed.
    binders: Vec<String>,
    /// How many names have been tried for these.
    tried: usize,
}

impl<'a> ByName<'a> {
    pub(super) fn new(names: &'a Names, free: &'a [String]) -> ByName<'a> {
        ByName {
            names,
            free,
            free_names: free.iter().map(String::as_str).collect(),
            binders: Vec::new(),
            tried: 0,
        }
    }

    /// The name of the binder with so many around it. None is declared or free.
    fn binder(&mut self, level: usize) -> &str {
        while self.binders.len() <= level {
            let letter = LETTERS[self.tried % LETTERS.len()];
            let name = match self.tried / LETTERS.len() {
                0 => letter.to_string(),
                number => format!("{letter}{number}"),
            };
            self.tried += 1;
            let is_free = self.free_names.contains(name.as_str());
            if !is_free && !self.names.declared.contains_key(&name) {
                self.binders.push(name);
            }
        }
        &self.binders[level]
    }

    fn variable(&mut self, index: usize, level: usize) -> String {
        match index.checked_sub(level) {
            None => self.binder(level - 1 - index).to_string(),
            Some(number) => match self.free.get(number) {
                Some(name) => name.clone(),
                None => format!("free{number}"),
            },
        }
    }

    /// The declared name of a constructor with so many arguments.
    fn constructor(&self, tag: u32, count: usize) -> String {
        match self.names.tags.get(&tag) {
            Some(name) if self.names.constructor(name) == Some((tag, count)) => name.clone(),
            _ => format!("#{tag}"),
        }
    }

    fn pattern(&mut self, tag: u32, bound: usize, level: usize) -> String {
        let mut pattern = match (tag, bound) {
            (0, 0) => "_".to_string(),
            _ => self.constructor(tag, bound),
        };
        for nth in 0..bound {
            pattern.push(' ');
            pattern.push_str(self.binder(level + nth));
        }
        pattern + " ->"
    }

    /// Writes abstractions that follow each other as one.
    fn abstractions(&mut self, writer: &mut Writer, first: usize, level: usize) {
        writer.sign(first, &format!("\\{}", self.binder(level)));
        let (mut body, mut level) = (first + 1, level + 1);
        while writer.nodes[body] == Node::Abstraction {
            writer.text(" ");
            writer.sign(body, self.binder(level));
            body += 1;
            level += 1;
        }
        writer.text(". ");
        writer.leave([alone(body, level)]);
    }
}

impl Notation for ByName<'_> {
    const ARGUMENTS_ARE_ITEMS: bool = true;

    fn write(&mut self, writer: &mut Writer, position: usize, level: usize) {
        let mut children = writer.shape.children(position);
        match writer.nodes[position] {
            Node::Variable { index } => {
                writer.sign(position, &self.variable(index as usize, level));
            }
            Node::Numeral { value } => writer.sign(position, &format!("%{value}")),
            Node::Abstraction => self.abstractions(writer, position, level),
            Node::Application => {}
            Node::Constructor { tag, arguments } => {
                writer.sign(position, &self.constructor(tag, arguments));
                let inner = repeat_n(Place::InnerItem, arguments.saturating_sub(1));
                let items = children.zip(inner.chain([Place::LastItem]));
                let item = |(position, place)| Part::Term {
                    position,
                    place,
                    level,
                };
                writer.leave(items.flat_map(|child| [Part::Mark(" "), item(child)]));
            }
            Node::Case { .. } => {
                writer.sign(position, "case");
                let subject = children.next().map(|at| alone(at, level));
                let default = Node::Branch { tag: 0, bound: 0 };
                let nodes = writer.nodes;
                let (defaults, others): (Vec<usize>, Vec<usize>) =
                    children.partition(|&at| nodes[at] == default);
                let branches = others.into_iter().chain(defaults);
                let branches = separated(branches.map(|at| alone(at, level)), "; ");
                writer.leave(
                    [Part::Mark(" ")]
                        .into_iter()
                        .chain(subject)
                        .chain([Part::Mark(" of {")])
                        .chain(branches)
                        .chain([Part::Mark("}")]),
                );
            }
            Node::Branch { tag, bound } => {
                let bound = bound as usize;
                writer.sign(position, &self.pattern(tag, bound, level));
                writer.text(" ");
                writer.leave(children.map(|at| alone(at, level + bound)));
            }
        }
    }
}
