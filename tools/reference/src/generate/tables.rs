//! Tables of terms, and of trees that are no terms, in any allowed order.

use crate::random::Random;
use crate::table::{FORM, RECORD};
use crate::term::Term;
use crate::words::{kind, COUNTS};

/// A record with its children, right or wrong.
#[derive(Clone, Debug, PartialEq, Eq)]
pub struct Node {
    pub kind: u32,
    pub value: u32,
    pub children: Vec<Node>,
}

pub fn node(kind: u32, value: u32, children: Vec<Node>) -> Node {
    Node {
        kind,
        value,
        children,
    }
}

impl Node {
    pub fn of(term: &Term) -> Self {
        match term {
            Term::Var(index) => node(kind::VARIABLE, *index, Vec::new()),
            Term::Abs(body) => node(kind::ABSTRACTION, 0, vec![Node::of(body)]),
            Term::App(function, argument) => node(
                kind::APPLICATION,
                0,
                vec![Node::of(function), Node::of(argument)],
            ),
            Term::Con { tag, args } => {
                node(kind::CONSTRUCTOR, *tag, args.iter().map(Node::of).collect())
            }
            Term::Case {
                scrutinee,
                branches,
            } => {
                let arms = branches.iter().map(|branch| {
                    let value = branch.tag * COUNTS + branch.bound;
                    node(kind::BRANCH, value, vec![Node::of(&branch.body)])
                });
                let children = std::iter::once(Node::of(scrutinee)).chain(arms).collect();
                node(kind::CASE, 0, children)
            }
            Term::Num(numeral) => node(kind::NUMERAL, *numeral, Vec::new()),
        }
    }

    /// The number of records.
    pub fn size(&self) -> usize {
        1 + self.children.iter().map(Node::size).sum::<usize>()
    }
}

/// How records are numbered; each order puts a record before its first child
/// and before its next.
#[derive(Clone, Copy, Debug, PartialEq, Eq)]
pub enum Order {
    /// A record, then its children, then its next.
    Prefix,
    /// The record that has waited longest.
    Oldest,
    /// Any record whose turn may come.
    Any,
}

impl Order {
    pub fn random(random: &mut Random) -> Self {
        random.pick(&[Order::Prefix, Order::Prefix, Order::Oldest, Order::Any])
    }
}

/// The table whose root is the first node; the others follow it on its chain.
pub fn table(random: &mut Random, forest: &[Node], order: Order) -> Vec<u32> {
    let count: usize = forest.iter().map(Node::size).sum();
    let mut words = vec![0; RECORD * (count + 1)];
    words[0] = FORM;
    words[1] = count as u32;
    let mut index = 0;
    // Rests of chains that wait for a number, with the link that names them.
    let mut waiting = vec![(forest, 2)];
    while !waiting.is_empty() {
        let turn = match order {
            Order::Prefix => waiting.len() - 1,
            Order::Oldest => 0,
            Order::Any => random.below(waiting.len()),
        };
        let (chain, link) = waiting.remove(turn);
        let Some((first, rest)) = chain.split_first() else {
            continue;
        };
        index += 1;
        words[link] = index as u32;
        let own = RECORD * index;
        words[own] = first.kind;
        words[own + 1] = first.value;
        waiting.push((rest, own + 3));
        waiting.push((&first.children, own + 2));
    }
    words
}

/// The table of a term.
pub fn term_table(random: &mut Random, term: &Term, order: Order) -> Vec<u32> {
    table(random, &[Node::of(term)], order)
}
