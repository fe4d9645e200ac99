//! Encodings in Tromp's binary lambda calculus: closed terms of variables, abstractions and
//! applications as bits.
//!
//! ```text
//! abstraction = 00 body
//! application = 01 function argument
//! index i     = i + 1 ones, 0
//! ```
//!
//! An encoding is bytes and the count of its bits beside them. The first bit of a byte is its highest
//! one, and every bit past the count is 0.

use std::fmt;

use crate::limits::MAX_INDEX;
use crate::term::{Node, Term};
use crate::text::quoted;
use crate::words::{words_text, WordError};

const BYTE: usize = 8;

/// Bits that are no term, or no encoding: the place, counted in bits from 1, and why.
#[derive(Clone, Debug, PartialEq, Eq)]
pub struct BitError {
    pub place: usize,
    pub reason: String,
}

impl fmt::Display for BitError {
    fn fmt(&self, f: &mut fmt::Formatter) -> fmt::Result {
        write!(f, "bit {}: {}", self.place, self.reason)
    }
}

impl Term {
    /// The bits of the term's encoding, or the first word for which it has none.
    pub fn bits(&self) -> Result<Vec<bool>, WordError> {
        let mut bits = Vec::new();
        for (place, (node, binders)) in (1..).zip(self.with_binders()) {
            let word = node_bits(node, binders).map_err(|reason| WordError { place, reason });
            bits.extend(word?);
        }
        Ok(bits)
    }

    /// The term that the bits make, closed or not.
    pub fn from_bits(bits: &[bool]) -> Result<Term, BitError> {
        let mut nodes = Vec::new();
        let mut to_come = 1;
        let mut rest = bits;
        while to_come > 0 {
            let ones = rest.iter().take_while(|bit| **bit).count();
            let (node, length) = match rest {
                [false, false, ..] => (Node::Abstraction, 2),
                [false, true, ..] => (Node::Application, 2),
                [true, ..] if ones < rest.len() => {
                    let node = variable(ones - 1).map_err(|reason| BitError {
                        place: bits.len() - rest.len() + 1,
                        reason,
                    })?;
                    (node, ones + 1)
                }
                _ => {
                    return Err(BitError {
                        place: bits.len() + 1,
                        reason: "the bits end before the term does".to_string(),
                    })
                }
            };
            rest = &rest[length..];
            to_come = to_come - 1 + node.children();
            nodes.push(node);
        }
        match rest.len() {
            0 => Ok(Term { nodes }),
            left_over => Err(BitError {
                place: bits.len() - left_over + 1,
                reason: "from here on bits are left over after the term".to_string(),
            }),
        }
    }
}

/// The bits of a node with so many binders around it, or why it has none.
fn node_bits(node: Node, binders: usize) -> Result<Vec<bool>, String> {
    let other = match node {
        Node::Abstraction => return Ok(vec![false, false]),
        Node::Application => return Ok(vec![false, true]),
        Node::Variable { index } => {
            let index = index as usize;
            return match index.checked_sub(binders) {
                None => Ok([vec![true; index + 1], vec![false]].concat()),
                Some(free) => Err(format!(
                    "index {index} is the free variable {free}; only closed terms have encodings"
                )),
            };
        }
        Node::Constructor { tag, .. } => format!("#{tag} is a constructor"),
        Node::Case { .. } | Node::Branch { .. } => "? is a case".to_string(),
        Node::Numeral { value } => format!("%{value} is a numeral"),
    };
    Err(format!(
        "{other}; encodings have only variables, abstractions and applications"
    ))
}

/// The variable of an index, or why there is none.
fn variable(index: usize) -> Result<Node, String> {
    match u32::try_from(index) {
        Ok(index) if index <= MAX_INDEX => Ok(Node::Variable { index }),
        _ => Err(format!(
            "a run for index {index}; the notation ends at {MAX_INDEX}"
        )),
    }
}

/// The bits of an encoding.
pub fn encoding_bits(count: usize, bytes: &[u8]) -> Result<Vec<bool>, BitError> {
    let bit = |position: usize| bytes[position / BYTE] << (position % BYTE) & 0x80 != 0;
    let mut bits: Vec<bool> = (0..bytes.len() * BYTE).map(bit).collect();
    if count > bits.len() {
        return Err(BitError {
            place: bits.len() + 1,
            reason: format!("the bytes end before the bit count, {count}"),
        });
    }
    if let Some(zeros) = bits[count..].iter().position(|bit| *bit) {
        return Err(BitError {
            place: count + zeros + 1,
            reason: format!("a 1 past the bit count, {count}, where every bit is 0"),
        });
    }
    bits.truncate(count);
    Ok(bits)
}

/// As few bytes as hold the bits, zeros after them.
fn packed(bits: &[bool]) -> Vec<u8> {
    let mut bytes = vec![0; bits.len().div_ceil(BYTE)];
    for (position, &bit) in bits.iter().enumerate() {
        if bit {
            bytes[position / BYTE] |= 0x80 >> (position % BYTE);
        }
    }
    bytes
}

/// The encoding of bits as the vectors write it, the count and the bytes: `23 1,122,116`.
pub fn encoding_text(bits: &[bool]) -> String {
    let bytes: Vec<u32> = packed(bits).into_iter().map(u32::from).collect();
    format!("{} {}", bits.len(), words_text(&bytes))
}

/// Bits as they are written: `0010`.
pub fn bits_text(bits: &[bool]) -> String {
    let digit = |bit: &bool| if *bit { '1' } else { '0' };
    bits.iter().map(digit).collect()
}

/// Reads bits; blanks may stand around each.
pub fn read_bits(text: &str) -> Result<Vec<bool>, BitError> {
    let digits = text.chars().filter(|character| !character.is_whitespace());
    let bit = |(place, digit)| match digit {
        '0' => Ok(false),
        '1' => Ok(true),
        other => Err(BitError {
            place,
            reason: format!("expected 0 or 1, found {}", quoted(other)),
        }),
    };
    (1..).zip(digits).map(bit).collect()
}
