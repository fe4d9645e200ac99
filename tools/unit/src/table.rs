//! The stored table of a term, form 1, its records in prefix order.

use crate::term::{Node, Term};
use crate::word::tagged;
use crate::words::words_text;

/// The first word of a table's header.
pub const FORM: u32 = 1;

/// Words in a record: kind, value, first child, next.
pub const RECORD: usize = 4;

/// A record whose children are being linked.
struct Parent {
    to_come: usize,
    /// The record of the last child so far, 0 if there is none.
    last: usize,
}

/// The words of the table. What is out of the unit's ranges is for the unit to refuse.
pub fn table(term: &Term) -> Vec<u32> {
    let mut words = vec![FORM, number(term.nodes.len()), 1, 0];
    let mut parents: Vec<Parent> = Vec::new();
    for (record, &node) in (1..).zip(&term.nodes) {
        if let Some(parent) = parents.last_mut() {
            if parent.last > 0 {
                words[parent.last * RECORD + 3] = number(record);
            }
            parent.last = record;
            parent.to_come -= 1;
        }
        let first_child = match node.children() {
            0 => 0,
            _ => record + 1,
        };
        words.extend([node.kind(), value(node), number(first_child), 0]);
        parents.push(Parent {
            to_come: node.children(),
            last: 0,
        });
        while parents.last().is_some_and(|parent| parent.to_come == 0) {
            parents.pop();
        }
    }
    words
}

fn value(node: Node) -> u32 {
    match node {
        Node::Variable { index } => index,
        Node::Constructor { tag, .. } => tag,
        Node::Branch { tag, bound } => tagged(tag, bound),
        Node::Numeral { value } => value,
        Node::Abstraction | Node::Application | Node::Case { .. } => 0,
    }
}

fn number(count: usize) -> u32 {
    u32::try_from(count).expect("a table has fewer than 2^32 records")
}

/// A table as the rules write it, record by record: `1,2,1,0, 1,0,2,0, 0,0,0,0`.
pub fn table_text(table: &[u32]) -> String {
    let records: Vec<String> = table.chunks(RECORD).map(words_text).collect();
    records.join(", ")
}
