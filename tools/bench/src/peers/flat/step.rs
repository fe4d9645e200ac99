//! One leftmost outermost contraction: the redex, the next term's length, the contraction.

use std::ops::Range;

use unit::limits::MAX_ARGUMENTS;
use unit::word::*;

use super::words::{skip, Binders};

/// Room for the starts of a redex's arguments and the end of the last.
const PLACES: usize = MAX_ARGUMENTS as usize + 1;

/// A redex by its rule.
pub enum Redex {
    Substitution(Substitution),
    Numeral { at: usize, value: usize },
}

/// A redex whose arguments are put into a body. Beta is the case of one argument.
pub struct Substitution {
    at: usize,
    end: usize,
    body: Range<usize>,
    bound: usize,
    /// Where each argument starts, and where the last one ends.
    arguments: [u16; PLACES],
}

/// The leftmost outermost redex: the one whose first word comes earliest.
pub fn leftmost(words: &[u32]) -> Option<Redex> {
    (0..words.len()).find_map(|at| match kind(words[at]) {
        APPLICATION if kind(words[at + 1]) == ABSTRACTION => {
            Some(Redex::Substitution(beta(words, at)))
        }
        CASE if kind(words[at + 1]) == CONSTRUCTOR => case(words, at).map(Redex::Substitution),
        NUMERAL => {
            let value = payload(words[at]) as usize;
            Some(Redex::Numeral { at, value })
        }
        _ => None,
    })
}

fn beta(words: &[u32], at: usize) -> Substitution {
    let argument = skip(words, at + 1);
    let end = skip(words, argument);
    let mut arguments = [0; PLACES];
    arguments[0] = argument as u16;
    arguments[1] = end as u16;
    Substitution {
        at,
        end,
        body: at + 2..argument,
        bound: 1,
        arguments,
    }
}

/// A case on a constructor, if a branch has its tag and count, or there is a default and no branch
/// of the tag. A default takes no argument.
fn case(words: &[u32], at: usize) -> Option<Substitution> {
    let subject = payload(words[at + 1]);
    let bound = count(subject) as usize;
    let mut end = at + 2;
    let mut arguments = [0; PLACES];
    arguments[0] = end as u16;
    for next in &mut arguments[1..=bound] {
        end = skip(words, end);
        *next = end as u16;
    }
    let (mut body, mut default) = (None, None);
    let mut listed = false;
    for _ in 0..payload(words[at]) {
        let branch = end;
        end = skip(words, branch);
        match payload(words[branch]) {
            0 => default = Some(branch + 1..end),
            own => {
                listed |= tag(own) == tag(subject);
                body = body.or((own == subject).then_some(branch + 1..end));
            }
        }
    }
    let (body, bound) = match listed {
        true => (body?, bound),
        false => (default?, 0),
    };
    Some(Substitution {
        at,
        end,
        body,
        bound,
        arguments,
    })
}

impl Redex {
    /// The length of the term after the contraction.
    pub fn next_length(&self, words: &[u32], binders: &mut Binders) -> usize {
        match self {
            Redex::Substitution(substitution) => substitution.next_length(words, binders),
            Redex::Numeral { value, .. } => words.len() - 1 + church_length(*value),
        }
    }

    /// Contracts the term of `length` words in place; its next length.
    pub fn contract(
        &self,
        workspace: &mut [u32],
        length: usize,
        scratch: &mut [u32],
        walks: &mut Walks,
    ) -> usize {
        let (at, end, written) = match self {
            Redex::Substitution(substitution) => {
                let written = substitution.contractum(&workspace[..length], scratch, walks);
                (substitution.at, substitution.end, written)
            }
            Redex::Numeral { at, value } => (*at, at + 1, church(*value, scratch)),
        };
        let next = at + written;
        workspace.copy_within(end..length, next);
        workspace[at..next].copy_from_slice(&scratch[..written]);
        next + length - end
    }
}

fn church_length(value: usize) -> usize {
    2 * value + 3
}

/// Writes the Church numeral into the scratch and returns its length.
fn church(value: usize, scratch: &mut [u32]) -> usize {
    let length = church_length(value);
    scratch[..2].fill(word(ABSTRACTION, 0));
    for words in scratch[2..length - 1].chunks_exact_mut(2) {
        words.copy_from_slice(&[word(APPLICATION, 0), word(VARIABLE, 1)]);
    }
    scratch[length - 1] = word(VARIABLE, 0);
    length
}

impl Substitution {
    /// The argument that replaces an index under `depth` binders of the body: the last is index 0.
    fn argument(&self, index: u32, depth: u32) -> Option<Range<usize>> {
        let number = index.checked_sub(depth)? as usize;
        if number >= self.bound {
            return None;
        }
        let nth = self.bound - 1 - number;
        Some(usize::from(self.arguments[nth])..usize::from(self.arguments[nth + 1]))
    }

    fn next_length(&self, words: &[u32], binders: &mut Binders) -> usize {
        let mut length = words.len() - (self.end - self.at);
        binders.start();
        for &word in &words[self.body.clone()] {
            length += match kind(word) {
                VARIABLE => match self.argument(payload(word), binders.depth()) {
                    Some(argument) => argument.len(),
                    None => 1,
                },
                _ => 1,
            };
            binders.pass(word);
        }
        length
    }

    /// Writes the contractum into the scratch and returns its length.
    fn contractum(&self, words: &[u32], scratch: &mut [u32], walks: &mut Walks) -> usize {
        let mut length = 0;
        walks.body.start();
        for &word in &words[self.body.clone()] {
            let depth = walks.body.depth();
            walks.body.pass(word);
            let index = payload(word);
            if kind(word) != VARIABLE || index < depth {
                scratch[length] = word;
                length += 1;
            } else if let Some(argument) = self.argument(index, depth) {
                let raised = &mut scratch[length..length + argument.len()];
                length += argument.len();
                raise(&words[argument], depth, raised, &mut walks.argument);
            } else {
                scratch[length] = self::word(VARIABLE, index - self.bound as u32);
                length += 1;
            }
        }
        length
    }
}

/// What follows the binders in a body and in an argument put into it.
pub struct Walks {
    pub body: Binders,
    pub argument: Binders,
}

/// Copies a term with its free indices raised.
fn raise(term: &[u32], by: u32, raised: &mut [u32], binders: &mut Binders) {
    if by == 0 {
        raised.copy_from_slice(term);
        return;
    }
    binders.start();
    for (&word, target) in term.iter().zip(raised) {
        let free = kind(word) == VARIABLE && payload(word) >= binders.depth();
        *target = match free {
            true => self::word(VARIABLE, payload(word) + by),
            false => word,
        };
        binders.pass(word);
    }
}
