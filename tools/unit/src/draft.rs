//! A term under way, as a reader of text meets it.

use std::iter::{once, repeat_n};

use crate::term::Node;

/// The nodes read so far, in the order of the text.
#[derive(Default)]
pub(crate) struct Draft {
    /// All but the applications that the text makes, which show only after their first item.
    pub(crate) nodes: Vec<Node>,
    /// How many applications stand in front of each node.
    applications: Vec<usize>,
}

impl Draft {
    pub(crate) fn push(&mut self, node: Node) {
        self.nodes.push(node);
        self.applications.push(0);
    }

    /// Puts so many applications in front of the items from a position on.
    pub(crate) fn apply(&mut self, position: usize, count: usize) {
        self.applications[position] += count;
    }

    /// All nodes in prefix order.
    pub(crate) fn into_nodes(self) -> Vec<Node> {
        let nodes = self.nodes.into_iter().zip(self.applications);
        let with_applications =
            |(node, count)| repeat_n(Node::Application, count).chain(once(node));
        nodes.flat_map(with_applications).collect()
    }
}
