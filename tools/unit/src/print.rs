//! Writes a term as text, with the fewest parentheses and no recursion.

use std::fmt;
use std::ops::Range;

use crate::term::{Node, Shape, Term};

/// The text of a term, and where in it each word stands.
#[derive(Clone, Debug, PartialEq, Eq)]
pub struct Printed {
    pub text: String,
    /// In bytes, one for each word in prefix order. An application, which has no sign of its own,
    /// reaches from its function's first character to its argument's last.
    pub spans: Vec<Range<usize>>,
}

impl Term {
    /// The text in the notation of indices.
    pub fn printed(&self) -> Printed {
        written(self, &mut Indices)
    }
}

impl fmt::Display for Term {
    fn fmt(&self, f: &mut fmt::Formatter) -> fmt::Result {
        f.write_str(&self.printed().text)
    }
}

/// A notation: what it writes for each node but an application.
pub(crate) trait Notation {
    /// Whether the arguments of a constructor stand behind it as those of a function do.
    const ARGUMENTS_ARE_ITEMS: bool;

    /// Writes what comes before the first child of a node, with so many binders around it, and leaves
    /// the rest to be written.
    fn write(&mut self, writer: &mut Writer, position: usize, level: usize);
}

/// Where a term stands decides whether it needs parentheses.
#[derive(Clone, Copy, PartialEq)]
pub(crate) enum Place {
    /// Between delimiters, where any term stands bare.
    Alone,
    /// The function of an application.
    Function,
    /// The last item of a bare application.
    LastItem,
    /// An argument with items after it.
    InnerItem,
}

/// What is still to be written.
pub(crate) enum Part {
    /// A term or branch.
    Term {
        position: usize,
        place: Place,
        level: usize,
    },
    Mark(&'static str),
    /// Here ends the application at a position.
    End(usize),
}

pub(crate) struct Writer<'a> {
    pub(crate) nodes: &'a [Node],
    pub(crate) shape: &'a Shape,
    printed: Printed,
    /// The next one last.
    parts: Vec<Part>,
}

/// The text of a term in a notation.
pub(crate) fn written<N: Notation>(term: &Term, notation: &mut N) -> Printed {
    let mut writer = Writer {
        nodes: &term.nodes,
        shape: &Shape::new(&term.nodes),
        printed: Printed {
            text: String::new(),
            spans: vec![0..0; term.nodes.len()],
        },
        parts: vec![alone(0, 0)],
    };
    while let Some(part) = writer.parts.pop() {
        match part {
            Part::Mark(mark) => writer.text(mark),
            Part::End(position) => {
                writer.printed.spans[position].end = writer.printed.text.len();
            }
            Part::Term {
                position,
                mut place,
                level,
            } => {
                if is_parenthesised::<N>(writer.nodes[position], place) {
                    writer.text("(");
                    writer.leave([Part::Mark(")")]);
                    place = Place::Alone;
                }
                match writer.nodes[position] {
                    Node::Application => writer.application(position, place, level),
                    _ => notation.write(&mut writer, position, level),
                }
            }
        }
    }
    writer.printed
}

fn is_parenthesised<N: Notation>(node: Node, place: Place) -> bool {
    match node {
        Node::Abstraction => matches!(place, Place::Function | Place::InnerItem),
        Node::Application => matches!(place, Place::LastItem | Place::InnerItem),
        Node::Constructor { .. } if !N::ARGUMENTS_ARE_ITEMS => false,
        Node::Constructor { arguments: 0, .. } => matches!(place, Place::Function),
        Node::Constructor { .. } => place != Place::Alone,
        _ => false,
    }
}

impl Writer<'_> {
    /// Writes the sign of the node at a position.
    pub(crate) fn sign(&mut self, position: usize, sign: &str) {
        let start = self.printed.text.len();
        self.text(sign);
        self.printed.spans[position] = start..self.printed.text.len();
    }

    pub(crate) fn text(&mut self, text: &str) {
        self.printed.text.push_str(text);
    }

    /// Leaves parts to be written, in this order and before all others.
    pub(crate) fn leave(&mut self, parts: impl IntoIterator<Item = Part>) {
        let from = self.parts.len();
        self.parts.extend(parts);
        self.parts[from..].reverse();
    }

    fn application(&mut self, position: usize, place: Place, level: usize) {
        self.sign(position, "");
        let item = |(position, place)| Part::Term {
            position,
            place,
            level,
        };
        let argument = match place {
            Place::Function => Place::InnerItem,
            _ => Place::LastItem,
        };
        let children = self.shape.children(position);
        let items = children.zip([Place::Function, argument]).map(item);
        self.leave(separated(items, " ").chain([Part::End(position)]));
    }
}

/// A term or branch between delimiters.
pub(crate) fn alone(position: usize, level: usize) -> Part {
    Part::Term {
        position,
        place: Place::Alone,
        level,
    }
}

/// The parts with a mark between any two.
pub(crate) fn separated(
    parts: impl Iterator<Item = Part>,
    mark: &'static str,
) -> impl Iterator<Item = Part> {
    let with_mark = move |(nth, part)| [(nth > 0).then_some(Part::Mark(mark)), Some(part)];
    parts.enumerate().flat_map(with_mark).flatten()
}

/// The notation of indices.
struct Indices;

impl Notation for Indices {
    const ARGUMENTS_ARE_ITEMS: bool = false;

    fn write(&mut self, writer: &mut Writer, position: usize, level: usize) {
        let node = writer.nodes[position];
        writer.sign(position, &sign(node));
        let mut children = writer.shape.children(position).map(|at| alone(at, level));
        match node {
            Node::Constructor { arguments: 0, .. } => {}
            Node::Constructor { .. } => {
                writer.text("[");
                writer.leave(separated(children, ",").chain([Part::Mark("]")]));
            }
            Node::Case { .. } => {
                let subject = children.next().into_iter();
                let branches = separated(children, ",").chain([Part::Mark("}")]);
                writer.leave(subject.chain([Part::Mark("{")]).chain(branches));
            }
            _ => writer.leave(children),
        }
    }
}

fn sign(node: Node) -> String {
    match node {
        Node::Variable { index } => index.to_string(),
        Node::Abstraction => "\\".to_string(),
        Node::Application => String::new(),
        Node::Constructor { tag, .. } => format!("#{tag}"),
        Node::Case { .. } => "?".to_string(),
        Node::Branch { tag: 0, bound: 0 } => "_:".to_string(),
        Node::Branch { tag, bound } => format!("{tag}.{bound}:"),
        Node::Numeral { value } => format!("%{value}"),
    }
}
