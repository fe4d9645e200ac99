//! A word: payload × 8 + kind.

pub const VARIABLE: u32 = 0;
pub const ABSTRACTION: u32 = 1;
pub const APPLICATION: u32 = 2;
pub const CONSTRUCTOR: u32 = 3;
pub const CASE: u32 = 4;
pub const BRANCH: u32 = 5;
pub const NUMERAL: u32 = 6;

/// Kinds that a word has room for.
pub const KINDS: u32 = 8;

/// A tag stands beside a count, of arguments or of bound variables: tag × 16 + count.
pub const COUNTS: u32 = 16;

pub fn word(kind: u32, payload: u32) -> u32 {
    payload * KINDS + kind
}

pub fn kind(word: u32) -> u32 {
    word % KINDS
}

pub fn payload(word: u32) -> u32 {
    word / KINDS
}

/// The payload or the value in a table of a tag and a count.
pub fn tagged(tag: u32, count: u32) -> u32 {
    tag * COUNTS + count
}

pub fn tag(tagged: u32) -> u32 {
    tagged / COUNTS
}

pub fn count(tagged: u32) -> u32 {
    tagged % COUNTS
}

/// The number of terms and branches directly below a word.
pub fn children(word: u32) -> usize {
    match kind(word) {
        VARIABLE | NUMERAL => 0,
        ABSTRACTION | BRANCH => 1,
        APPLICATION => 2,
        CONSTRUCTOR => count(payload(word)) as usize,
        _ => payload(word) as usize + 1,
    }
}
