//! The words of a term in prefix order, and the term of a list of words.

use crate::term::{
    abs, app, branch, case, con, num, tags_rise, var, Branch, Term, LARGEST_NUMERAL,
    MOST_ARGUMENTS, MOST_BOUND, MOST_BRANCHES, TAGS,
};

/// The kind numbers of words and of table records.
pub mod kind {
    pub const VARIABLE: u32 = 0;
    pub const ABSTRACTION: u32 = 1;
    pub const APPLICATION: u32 = 2;
    pub const CONSTRUCTOR: u32 = 3;
    pub const CASE: u32 = 4;
    pub const BRANCH: u32 = 5;
    pub const NUMERAL: u32 = 6;
}

/// A word is its payload times this, plus its kind.
const KINDS: u32 = 8;
/// A tag is multiplied by this before a count is added.
pub const COUNTS: u32 = 16;

/// The words of a term in prefix order.
pub fn words(term: &Term) -> Vec<u32> {
    let mut out = Vec::new();
    push_words(term, &mut out);
    out
}

pub fn word(kind: u32, payload: u32) -> u32 {
    payload * KINDS + kind
}

pub fn kind_of(word: u32) -> u32 {
    word % KINDS
}

pub fn payload_of(word: u32) -> u32 {
    word / KINDS
}

fn push_words(term: &Term, out: &mut Vec<u32>) {
    match term {
        Term::Var(index) => out.push(word(kind::VARIABLE, *index)),
        Term::Abs(body) => {
            out.push(word(kind::ABSTRACTION, 0));
            push_words(body, out);
        }
        Term::App(function, argument) => {
            out.push(word(kind::APPLICATION, 0));
            push_words(function, out);
            push_words(argument, out);
        }
        Term::Con { tag, args } => {
            out.push(word(kind::CONSTRUCTOR, tag * COUNTS + args.len() as u32));
            args.iter().for_each(|arg| push_words(arg, out));
        }
        Term::Case {
            scrutinee,
            branches,
        } => {
            out.push(word(kind::CASE, branches.len() as u32));
            push_words(scrutinee, out);
            for branch in branches {
                out.push(word(kind::BRANCH, branch.tag * COUNTS + branch.bound));
                push_words(&branch.body, out);
            }
        }
        Term::Num(numeral) => out.push(word(kind::NUMERAL, *numeral)),
    }
}

/// The term that the words are, if they are one whole accepted term.
pub fn read(words: &[u32]) -> Option<Term> {
    let mut reader = Reader { ahead: words };
    let term = reader.term()?;
    (reader.ahead.is_empty() && term.frees_fit()).then_some(term)
}

struct Reader<'a> {
    ahead: &'a [u32],
}

impl Reader<'_> {
    /// Kind and payload of the next word.
    fn next(&mut self) -> Option<(u32, u32)> {
        let (word, ahead) = self.ahead.split_first()?;
        self.ahead = ahead;
        Some((kind_of(*word), payload_of(*word)))
    }

    fn term(&mut self) -> Option<Term> {
        match self.next()? {
            (kind::VARIABLE, index) => Some(var(index)),
            (kind::ABSTRACTION, 0) => Some(abs(self.term()?)),
            (kind::APPLICATION, 0) => Some(app(self.term()?, self.term()?)),
            (kind::CONSTRUCTOR, payload) => {
                let (tag, count) = tag_and_count(payload, MOST_ARGUMENTS)?;
                let args = (0..count).map(|_| self.term()).collect::<Option<_>>()?;
                Some(con(tag, args))
            }
            (kind::CASE, count) if count as usize <= MOST_BRANCHES => {
                let scrutinee = self.term()?;
                let branches = (0..count)
                    .map(|_| self.branch())
                    .collect::<Option<Vec<_>>>()?;
                tags_rise(&branches).then(|| case(scrutinee, branches))
            }
            (kind::NUMERAL, numeral) if numeral <= LARGEST_NUMERAL => Some(num(numeral)),
            _ => None,
        }
    }

    fn branch(&mut self) -> Option<Branch> {
        match self.next()? {
            (kind::BRANCH, payload) => {
                let (tag, bound) = tag_and_bound(payload)?;
                Some(branch(tag, bound, self.term()?))
            }
            _ => None,
        }
    }
}

/// The two numbers in a payload, if both are within their limits.
fn tag_and_count(payload: u32, most: usize) -> Option<(u32, u32)> {
    let (tag, count) = (payload / COUNTS, payload % COUNTS);
    (TAGS.contains(&tag) && count as usize <= most).then_some((tag, count))
}

/// The two numbers in a branch's payload; those of a default are both 0.
pub fn tag_and_bound(payload: u32) -> Option<(u32, u32)> {
    match payload {
        0 => Some((0, 0)),
        _ => tag_and_count(payload, MOST_BOUND),
    }
}
