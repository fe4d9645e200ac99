//! Encodings with chosen faults, and bits that are an encoding only by chance.

use crate::encoding::{bits, Fault};
use crate::generate::encodings::{Encoding, MOST_BITS};
use crate::random::Random;
use crate::table::LONGEST_TABLE;

/// The encoding of a term with a change that makes the fault and no other.
pub fn with_fault(random: &mut Random, fault: Fault, encoding: Encoding) -> Encoding {
    match fault {
        Fault::Count => past_the_bytes(random, encoding),
        Fault::End => {
            let bits = cut(random, counted(&encoding));
            Encoding::of_bits(&bits).with_spare(random)
        }
        Fault::LeftOver => {
            let bits = continued(random, counted(&encoding));
            Encoding::of_bits(&bits).with_spare(random)
        }
        Fault::Padding => with_padding(random, encoding),
    }
}

fn counted(encoding: &Encoding) -> Vec<bool> {
    let mut bits = bits(&encoding.bytes);
    bits.truncate(encoding.count as usize);
    bits
}

/// A count past the bytes: too large, or with bytes away.
fn past_the_bytes(random: &mut Random, mut encoding: Encoding) -> Encoding {
    let lent = 8 * encoding.bytes.len() as u32;
    let count = encoding.count;
    match random.below(10) {
        8 | 9 => return without_last_zero(encoding),
        0..=2 => encoding.count = lent + random.pick(&[1, 1, 1, 2, 7, 8, 9, 64]),
        3 | 4 => encoding.bytes.truncate((count as usize - 1) / 8),
        5 => {
            encoding.bytes.clear();
            encoding.count = random.pick(&[1, 2, 8, count, u32::MAX]);
        }
        // Cut to fewer bits, or with eight bits to a byte, some are right.
        _ => {
            let beyond = [
                u32::MAX,
                u32::MAX,
                1 << 31,
                (1 << 31) + count,
                (1 << 29) + count,
                MOST_BITS as u32 + count,
                (1 << 17) + count,
            ];
            encoding.count = random.pick(&beyond);
        }
    }
    encoding
}

/// An encoding of which the last zero alone is past the bytes, if abstractions in
/// front can make it so.
fn without_last_zero(encoding: Encoding) -> Encoding {
    let mut bits = counted(&encoding);
    while bits.len() % 2 == 1 && bits.len() % 8 != 1 {
        bits.splice(0..0, [false, false]);
    }
    let mut encoding = Encoding::of_bits(&bits);
    encoding.bytes.truncate((bits.len() - 1) / 8);
    encoding
}

/// Bits that end before their term does.
fn cut(random: &mut Random, mut bits: Vec<bool>) -> Vec<bool> {
    let most = bits.len() - 1;
    match random.below(12) {
        0..=3 => bits.truncate(most),
        4..=6 => bits.truncate(random.below(most + 1)),
        7 => bits.truncate(most - most % 8),
        // A function without its argument.
        8 => {
            bits.splice(0..0, [false, true]);
            bits.truncate(MOST_BITS);
        }
        9 => bits = vec![true; random.between(1, 200)],
        10 => bits = vec![false; random.between(0, 200)],
        _ => bits.clear(),
    }
    bits
}

/// Bits with others behind their term.
fn continued(random: &mut Random, mut bits: Vec<bool>) -> Vec<bool> {
    let count = random.between(1, 70);
    let end = match random.below(8) {
        0..=2 => vec![false],
        3 => vec![true],
        // Zeros up to the end of the last byte, or of another one.
        4 => vec![false; (bits.len() + 1).next_multiple_of(8) - bits.len()],
        5 => vec![false; count],
        6 => bits.clone(),
        _ => (0..count).map(|_| random.percent(50)).collect(),
    };
    bits.extend(end);
    bits.truncate(MOST_BITS);
    bits
}

/// A one among the zeros past the count.
fn with_padding(random: &mut Random, mut encoding: Encoding) -> Encoding {
    let first = encoding.count as usize;
    let few = random.between(1, 9);
    let spare = random.pick(&[0, 0, 1, few]);
    let least = first / 8 + 1;
    let length = (encoding.bytes.len() + spare).max(least).min(LONGEST_TABLE);
    encoding.bytes.resize(length, 0);
    let last = 8 * length - 1;
    // An encoding may fill all bytes that can be lent.
    if first <= last {
        let any = random.between(first, last);
        let place = random.pick(&[first, first, last, last, any]);
        encoding.bytes[place / 8] |= 128 >> (place % 8);
    }
    encoding
}

/// The encoding with the bits or bytes in another order, or bits exchanged.
pub fn in_other_order(random: &mut Random, mut encoding: Encoding) -> Encoding {
    match random.below(6) {
        0..=2 => encoding
            .bytes
            .iter_mut()
            .for_each(|byte| *byte = byte.reverse_bits()),
        3 => encoding.bytes.chunks_mut(8).for_each(<[u8]>::reverse),
        4 => encoding.bytes.reverse(),
        _ => encoding.bytes.iter_mut().for_each(|byte| *byte = !*byte),
    }
    encoding
}

/// A few bits, or bytes and a count, by chance.
pub fn random_bits(random: &mut Random) -> Encoding {
    let length = random.below(25);
    let few = random.below(14);
    match random.below(3) {
        0 => {
            let bits: Vec<bool> = (0..few).map(|_| random.percent(50)).collect();
            Encoding::of_bits(&bits)
        }
        1 => Encoding {
            bytes: (0..length).map(|_| random.word() as u8).collect(),
            count: random.below(8 * length + 3) as u32,
        },
        _ => Encoding {
            bytes: vec![random.pick(&[0, 32, 128, 255]); length],
            count: random.pick(&[0, 1, 4, 8 * length as u32]),
        },
    }
}
