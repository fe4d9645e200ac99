//! The syntax of terms.

use std::iter::repeat_n;

use crate::word::{ABSTRACTION, APPLICATION, BRANCH, CASE, CONSTRUCTOR, NUMERAL, VARIABLE};

/// The head of a term or branch; what it governs follows it in prefix order.
#[derive(Clone, Copy, Debug, PartialEq, Eq)]
pub(crate) enum Node {
    Variable { index: u32 },
    Abstraction,
    Application,
    Constructor { tag: u32, arguments: usize },
    Case { branches: usize },
    Branch { tag: u32, bound: u32 },
    Numeral { value: u32 },
}

impl Node {
    /// The number of terms and branches directly below.
    pub(crate) fn children(self) -> usize {
        match self {
            Node::Variable { .. } | Node::Numeral { .. } => 0,
            Node::Abstraction | Node::Branch { .. } => 1,
            Node::Application => 2,
            Node::Constructor { arguments, .. } => arguments,
            Node::Case { branches } => branches + 1,
        }
    }

    /// The number of variables that it binds in what is below.
    pub(crate) fn binds(self) -> usize {
        match self {
            Node::Abstraction => 1,
            Node::Branch { bound, .. } => bound as usize,
            _ => 0,
        }
    }

    pub(crate) fn kind(self) -> u32 {
        match self {
            Node::Variable { .. } => VARIABLE,
            Node::Abstraction => ABSTRACTION,
            Node::Application => APPLICATION,
            Node::Constructor { .. } => CONSTRUCTOR,
            Node::Case { .. } => CASE,
            Node::Branch { .. } => BRANCH,
            Node::Numeral { .. } => NUMERAL,
        }
    }
}

/// A whole term that a table can hold: every index is at most `MAX_INDEX`, every numeral at most
/// `MAX_NUMERAL`, every bound count at most `MAX_BOUND`, and a branch's tag × 16 + bound fits 32 bits.
#[derive(Clone, Debug, PartialEq, Eq)]
pub struct Term {
    /// In prefix order.
    pub(crate) nodes: Vec<Node>,
}

impl Term {
    /// The number of its words.
    pub fn length(&self) -> usize {
        self.nodes.len()
    }

    /// Each node with the number of binders around it.
    pub(crate) fn with_binders(&self) -> impl Iterator<Item = (Node, usize)> + '_ {
        // The binders around each term and branch that is to come, the next one last.
        let mut binders = vec![0];
        self.nodes.iter().map(move |&node| {
            let around = binders.pop().expect("a term is whole");
            binders.extend(repeat_n(around + node.binds(), node.children()));
            (node, around)
        })
    }
}

/// How the nodes of a whole term hang together.
pub(crate) struct Shape {
    /// The position behind each node and all that it governs.
    ends: Vec<usize>,
}

impl Shape {
    pub(crate) fn new(nodes: &[Node]) -> Shape {
        let mut ends = vec![0; nodes.len()];
        for (position, node) in nodes.iter().enumerate().rev() {
            let end = (0..node.children()).fold(position + 1, |child, _| ends[child]);
            ends[position] = end;
        }
        Shape { ends }
    }

    /// The positions of what is directly below a node, in order.
    pub(crate) fn children(&self, position: usize) -> impl Iterator<Item = usize> + '_ {
        let end = self.ends[position];
        let first = (position + 1 < end).then_some(position + 1);
        std::iter::successors(first, move |&child| {
            Some(self.ends[child]).filter(|&next| next < end)
        })
    }
}
