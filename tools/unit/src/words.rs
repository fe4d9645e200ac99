//! A term as 32-bit words in prefix order.

use std::fmt;

use crate::limits::{MAX_ARGUMENTS, MAX_BOUND, MAX_INDEX, MAX_NUMERAL};
use crate::term::{Node, Term};
use crate::word::*;

/// Words that are no term, or a term without words or an encoding: the place, counted in words from
/// 1, and why.
#[derive(Clone, Debug, PartialEq, Eq)]
pub struct WordError {
    pub place: usize,
    pub reason: String,
}

impl fmt::Display for WordError {
    fn fmt(&self, f: &mut fmt::Formatter) -> fmt::Result {
        write!(f, "word {}: {}", self.place, self.reason)
    }
}

impl Term {
    /// The words of the term. A table holds more than they do: over `MAX_ARGUMENTS` arguments of
    /// a constructor, and tags too large for a payload.
    pub fn words(&self) -> Result<Vec<u32>, WordError> {
        let word = |(position, node): (usize, &Node)| {
            word(*node).ok_or_else(|| WordError {
                place: position + 1,
                reason: match node {
                    Node::Constructor { arguments, .. } if *arguments > MAX_ARGUMENTS as usize => {
                        format!("no word holds {arguments} arguments, only up to {MAX_ARGUMENTS}")
                    }
                    _ => "its tag is too large for a word".to_string(),
                },
            })
        };
        self.nodes.iter().enumerate().map(word).collect()
    }

    /// The term that the words make. Only their form is tested, no range.
    pub fn from_words(words: &[u32]) -> Result<Term, WordError> {
        let mut missing = vec![Missing::Terms(1)];
        let mut nodes = Vec::new();
        for (position, &word) in words.iter().enumerate() {
            let next = node(word).and_then(|node| take(&mut missing, node));
            nodes.push(next.map_err(|reason| WordError {
                place: position + 1,
                reason: format!("{word} {reason}"),
            })?);
        }
        if missing.is_empty() {
            Ok(Term { nodes })
        } else {
            Err(WordError {
                place: words.len() + 1,
                reason: "the words end before the term does".to_string(),
            })
        }
    }
}

/// The word of a node, if it has one.
fn word(node: Node) -> Option<u32> {
    let payload = match node {
        Node::Variable { index } => index,
        Node::Abstraction | Node::Application => 0,
        Node::Constructor { tag, arguments } => {
            let arguments = u32::try_from(arguments).ok()?;
            checked(tag, arguments, MAX_ARGUMENTS)?
        }
        Node::Case { branches } => u32::try_from(branches).ok()?,
        Node::Branch { tag, bound } => checked(tag, bound, MAX_BOUND)?,
        Node::Numeral { value } => value,
    };
    payload.checked_mul(KINDS)?.checked_add(node.kind())
}

/// A tag beside a count, if there is room for both.
fn checked(tag: u32, count: u32, most: u32) -> Option<u32> {
    if count > most {
        return None;
    }
    tag.checked_mul(COUNTS)?.checked_add(count)
}

/// The node of a word, or why it is none.
fn node(word: u32) -> Result<Node, String> {
    let payload = payload(word);
    let (tag, count) = (tag(payload), count(payload));
    match kind(word) {
        VARIABLE if payload <= MAX_INDEX => Ok(Node::Variable { index: payload }),
        VARIABLE => Err(format!(
            "is index {payload}; the notation ends at {MAX_INDEX}"
        )),
        ABSTRACTION if payload == 0 => Ok(Node::Abstraction),
        APPLICATION if payload == 0 => Ok(Node::Application),
        kind @ (ABSTRACTION | APPLICATION) => {
            Err(format!("has kind {kind} and a payload other than 0"))
        }
        CONSTRUCTOR => Ok(Node::Constructor {
            tag,
            arguments: count as usize,
        }),
        CASE => Ok(Node::Case {
            branches: payload as usize,
        }),
        BRANCH => Ok(Node::Branch { tag, bound: count }),
        NUMERAL if payload <= MAX_NUMERAL => Ok(Node::Numeral { value: payload }),
        NUMERAL => Err(format!(
            "is numeral {payload}; the last one is {MAX_NUMERAL}"
        )),
        kind => Err(format!("has kind {kind}; kinds run from 0 to {NUMERAL}")),
    }
}

/// How many terms, or branches, must follow one after the other.
enum Missing {
    Terms(usize),
    Branches(usize),
}

/// Takes the node for the first that is missing and adds what must follow it.
fn take(missing: &mut Vec<Missing>, node: Node) -> Result<Node, String> {
    let is_branch = matches!(node, Node::Branch { .. });
    let (branch_due, count) = match missing.last_mut() {
        None => return Err("comes after the end of the term".to_string()),
        Some(Missing::Terms(count)) => (false, count),
        Some(Missing::Branches(count)) => (true, count),
    };
    if is_branch != branch_due {
        return Err(match is_branch {
            true => "is a branch where a term must stand".to_string(),
            false => "is no branch, and a branch must stand here".to_string(),
        });
    }
    *count -= 1;
    if *count == 0 {
        missing.pop();
    }
    match node {
        Node::Case { branches } => {
            missing.extend((branches > 0).then_some(Missing::Branches(branches)));
            missing.push(Missing::Terms(1));
        }
        _ => missing.extend((node.children() > 0).then(|| Missing::Terms(node.children()))),
    }
    Ok(node)
}

/// Words as the rules write them: `2,1,0,24`.
pub fn words_text(words: &[u32]) -> String {
    let numbers: Vec<String> = words.iter().map(u32::to_string).collect();
    numbers.join(",")
}
