//! What both programs read: little-endian words, and the workspaces that
//! they lend.

use crate::table::LONGEST_TABLE;
use crate::term::WORKSPACE;

/// Zeros for a workspace of C words; one word too many stands for every
/// larger C.
pub fn workspace(capacity: u32) -> Vec<u32> {
    vec![0; (capacity as usize).min(WORKSPACE.end() + 1)]
}

/// Little-endian words that are still to be read.
pub struct Words<'a> {
    pub ahead: &'a [u8],
}

impl Words<'_> {
    /// The next word, if all its bytes are there.
    pub fn word(&mut self) -> Option<u32> {
        let (bytes, ahead) = self.ahead.split_first_chunk()?;
        self.ahead = ahead;
        Some(u32::from_le_bytes(*bytes))
    }

    /// A count within the limit of a table, and that many words.
    pub fn table(&mut self) -> Option<Vec<u32>> {
        let count = self.length()?;
        (0..count).map(|_| self.word()).collect()
    }

    /// A count within the same limit, and that many words, each a byte.
    pub fn bytes(&mut self) -> Option<Vec<u8>> {
        let words = self.table()?.into_iter();
        words.map(|word| u8::try_from(word).ok()).collect()
    }

    /// A word that gives the length of a table, or a number of bytes.
    pub fn length(&mut self) -> Option<usize> {
        let length = self.word()? as usize;
        (length <= LONGEST_TABLE).then_some(length)
    }
}

/// The bytes of words.
pub fn bytes(words: &[u32]) -> Vec<u8> {
    words.iter().flat_map(|word| word.to_le_bytes()).collect()
}
