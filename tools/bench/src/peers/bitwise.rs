//! Encodings imported and exported bit by bit. The program stands in for `replay` on scripts that only
//! import, export and store.

use unit::limits::WORKSPACE;
use unit::word::{kind, payload, word, ABSTRACTION, APPLICATION, VARIABLE};

use super::flat::words::{whole, Binders};
use super::script::{self, answer, Sides, Words, EXPORT, IMPORT, STORE};

/// Every byte that a script exports to, before the call.
const FILLING: u8 = 7;

/// What is printed for a script.
pub fn transcript(script: &[u8]) -> String {
    script::transcript(script, operate)
}

fn operate(operation: u32, words: &mut Words, sides: &mut Sides) -> Option<String> {
    Some(match operation {
        STORE => {
            let side = words.side(sides)?;
            let (at, word) = (words.word()? as usize, words.word()?);
            if let Some(old) = side.get_mut(at) {
                *old = word;
            }
            "store".to_string()
        }
        IMPORT => {
            let side = words.side(sides)?;
            let bits = words.word()? as usize;
            answer("import", import(&words.bytes()?, bits, side))
        }
        EXPORT => {
            let side = words.side(sides)?;
            let length = words.word()? as usize;
            let mut bytes = vec![FILLING; words.count()?];
            let text = answer("export", export(side, length, &mut bytes));
            let bytes: String = bytes.iter().map(|byte| format!(" {byte}")).collect();
            text + &bytes
        }
        _ => return None,
    })
}

/// Puts the term of an encoding into a workspace: the term's length, or a refusal's number.
pub fn import(bytes: &[u8], bits: usize, workspace: &mut [u32]) -> Result<usize, u32> {
    if !WORKSPACE.contains(&workspace.len()) {
        return Err(7);
    }
    let lent = 8 * bytes.len();
    if bits > lent || (bits..lent).any(|at| is_one(bytes, at)) {
        return Err(12);
    }
    let mut reader = Reader {
        bytes,
        at: 0,
        end: bits,
    };
    let (words, is_closed) = reader.term().filter(|_| reader.at == bits).ok_or(12_u32)?;
    let place = workspace.get_mut(..words.len()).ok_or(8_u32)?;
    if !is_closed {
        return Err(13);
    }
    place.copy_from_slice(&words);
    workspace[words.len()..].fill(0);
    Ok(words.len())
}

/// Puts the bits of the term in a workspace into bytes: how many they are, or a refusal's number.
pub fn export(workspace: &[u32], length: usize, bytes: &mut [u8]) -> Result<usize, u32> {
    if !WORKSPACE.contains(&workspace.len()) {
        return Err(7);
    }
    let words = workspace.get(..length).ok_or(10_u32)?;
    let bits = bits_of(words).ok_or_else(|| without_bits(words))?;
    if bits > 8 * bytes.len() {
        return Err(8);
    }
    bytes.fill(0);
    let mut writer = Writer { bytes, at: 0 };
    words.iter().for_each(|word| writer.word(*word));
    Ok(bits)
}

/// The refusal of words that have no bits. Its arrays stay out of every other export's frame.
#[inline(never)]
fn without_bits(words: &[u32]) -> u32 {
    match whole(words, &mut Binders::new()) {
        true => 13,
        false => 10,
    }
}

/// Bits come highest first in each byte.
fn is_one(bytes: &[u8], at: usize) -> bool {
    bytes[at / 8] >> (7 - at % 8) & 1 == 1
}

struct Reader<'a> {
    bytes: &'a [u8],
    at: usize,
    end: usize,
}

impl Reader<'_> {
    fn bit(&mut self) -> Option<bool> {
        if self.at == self.end {
            return None;
        }
        let bit = is_one(self.bytes, self.at);
        self.at += 1;
        Some(bit)
    }

    /// The words of a term, and whether it is closed, unless the bits end early.
    fn term(&mut self) -> Option<(Vec<u32>, bool)> {
        let mut words = Vec::new();
        let mut is_closed = true;
        // The binders around each term that is still to come, those of the next one last.
        let mut terms = vec![0];
        while let Some(binders) = terms.pop() {
            words.push(if self.bit()? {
                let index = self.index()?;
                is_closed &= index < binders;
                word(VARIABLE, index)
            } else if self.bit()? {
                terms.extend([binders; 2]);
                word(APPLICATION, 0)
            } else {
                terms.push(binders + 1);
                word(ABSTRACTION, 0)
            });
        }
        Some((words, is_closed))
    }

    /// The index whose first one is read.
    fn index(&mut self) -> Option<u32> {
        let mut index = 0;
        while self.bit()? {
            index += 1;
        }
        Some(index)
    }
}

/// The number of bits of a closed term of variables, abstractions and applications, if the words are
/// one.
fn bits_of(words: &[u32]) -> Option<usize> {
    let mut bits = 0;
    // As in reading.
    let mut terms = vec![0];
    for &word in words {
        let binders = terms.pop()?;
        bits += 2;
        match (kind(word), payload(word)) {
            (VARIABLE, index) if index < binders => bits += index as usize,
            (ABSTRACTION, 0) => terms.push(binders + 1),
            (APPLICATION, 0) => terms.extend([binders; 2]),
            _ => return None,
        }
    }
    terms.is_empty().then_some(bits)
}

/// Puts bits into bytes that are zeros.
struct Writer<'a> {
    bytes: &'a mut [u8],
    at: usize,
}

impl Writer<'_> {
    fn bit(&mut self, is_one: bool) {
        if is_one {
            self.bytes[self.at / 8] |= 128 >> (self.at % 8);
        }
        self.at += 1;
    }

    fn word(&mut self, word: u32) {
        match kind(word) {
            VARIABLE => {
                (0..=payload(word)).for_each(|_| self.bit(true));
                self.bit(false);
            }
            kind => {
                self.bit(false);
                self.bit(kind == APPLICATION);
            }
        }
    }
}
