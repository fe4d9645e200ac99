//! A term as bits, in Tromp's binary lambda calculus: import and export.

use crate::press::{put, term_in};
use crate::refusal::Refusal;
use crate::term::{abs, app, var, Term, WORKSPACE};
use std::fmt;

/// Brings the term of an encoding into a workspace and returns the term's length.
pub fn import(bytes: &[u8], count: u32, workspace: &mut [u32]) -> Result<u32, Refusal> {
    if !WORKSPACE.contains(&workspace.len()) {
        return Err(Refusal::Workspace);
    }
    let term = term_of(bytes, count).map_err(|_| Refusal::Bits)?;
    if term.size() > workspace.len() {
        return Err(Refusal::TooLong);
    }
    if !term.is_closed() {
        return Err(Refusal::NoEncoding);
    }
    Ok(put(workspace, &term))
}

/// Puts the bits of the term in a workspace into bytes, with zeros after them,
/// and returns their number.
pub fn export(workspace: &[u32], length: u32, bytes: &mut [u8]) -> Result<u32, Refusal> {
    if !WORKSPACE.contains(&workspace.len()) {
        return Err(Refusal::Workspace);
    }
    let term = term_in(workspace, length)?;
    let bits = match bits_of(&term) {
        Some(bits) if term.is_closed() => bits,
        _ => return Err(Refusal::NoEncoding),
    };
    let filled = packed(&bits);
    if filled.len() > bytes.len() {
        return Err(Refusal::TooLong);
    }
    bytes.fill(0);
    bytes[..filled.len()].copy_from_slice(&filled);
    Ok(bits.len() as u32)
}

/// What is wrong with an encoding.
#[derive(Clone, Copy, Debug, PartialEq, Eq)]
pub enum Fault {
    /// The count goes past the bytes.
    Count,
    /// The bits end before a term does.
    End,
    /// Bits are left over behind a term.
    LeftOver,
    /// A bit past the count is 1.
    Padding,
}

pub const FAULTS: [Fault; 4] = [Fault::Count, Fault::End, Fault::LeftOver, Fault::Padding];

impl fmt::Display for Fault {
    fn fmt(&self, f: &mut fmt::Formatter<'_>) -> fmt::Result {
        f.write_str(match self {
            Fault::Count => "a count past the bytes",
            Fault::End => "an early end",
            Fault::LeftOver => "bits left over",
            Fault::Padding => "the padding",
        })
    }
}

/// The term of an encoding, which need be neither closed nor short; the last
/// fault is found only where there is no other.
pub fn term_of(bytes: &[u8], count: u32) -> Result<Term, Fault> {
    let bits = bits(bytes);
    let (counted, padding) = bits.split_at_checked(count as usize).ok_or(Fault::Count)?;
    let (term, rest) = first_term(counted).ok_or(Fault::End)?;
    if !rest.is_empty() {
        return Err(Fault::LeftOver);
    }
    if padding.contains(&true) {
        return Err(Fault::Padding);
    }
    Ok(term)
}

/// The term with which bits begin, and the bits behind it; none if they end
/// before it does.
pub fn first_term(bits: &[bool]) -> Option<(Term, &[bool])> {
    let mut reader = Reader { ahead: bits };
    let term = reader.term()?;
    Some((term, reader.ahead))
}

/// The bits of bytes, the highest of each byte first.
pub fn bits(bytes: &[u8]) -> Vec<bool> {
    let places = (0..8).rev();
    let of_byte = |byte: &u8| {
        let byte = *byte;
        places.clone().map(move |place| byte >> place & 1 == 1)
    };
    bytes.iter().flat_map(of_byte).collect()
}

/// As few bytes as hold the bits, zeros after them.
pub fn packed(bits: &[bool]) -> Vec<u8> {
    let byte = |bits: &[bool]| {
        let places = (0..8).rev();
        let ones = bits.iter().zip(places).filter(|(bit, _)| **bit);
        ones.map(|(_, place)| 1 << place).sum()
    };
    bits.chunks(8).map(byte).collect()
}

/// The bits of a term, closed or not, if it is made of variables, abstractions
/// and applications.
pub fn bits_of(term: &Term) -> Option<Vec<bool>> {
    let mut bits = Vec::new();
    push_bits(term, &mut bits)?;
    Some(bits)
}

fn push_bits(term: &Term, bits: &mut Vec<bool>) -> Option<()> {
    match term {
        Term::Var(index) => {
            bits.extend((0..=*index).map(|_| true));
            bits.push(false);
        }
        Term::Abs(body) => {
            bits.extend([false, false]);
            push_bits(body, bits)?;
        }
        Term::App(function, argument) => {
            bits.extend([false, true]);
            push_bits(function, bits)?;
            push_bits(argument, bits)?;
        }
        Term::Con { .. } | Term::Case { .. } | Term::Num(_) => return None,
    }
    Some(())
}

/// Bits that are still to be read.
struct Reader<'a> {
    ahead: &'a [bool],
}

impl Reader<'_> {
    fn bit(&mut self) -> Option<bool> {
        let (bit, ahead) = self.ahead.split_first()?;
        self.ahead = ahead;
        Some(*bit)
    }

    fn term(&mut self) -> Option<Term> {
        if self.bit()? {
            return self.index();
        }
        Some(match self.bit()? {
            false => abs(self.term()?),
            true => app(self.term()?, self.term()?),
        })
    }

    /// A variable of which the first one is read.
    fn index(&mut self) -> Option<Term> {
        let mut index = 0;
        while self.bit()? {
            index += 1;
        }
        Some(var(index))
    }
}
