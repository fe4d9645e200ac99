//! Words of a term, their extent, and the check that words are one whole term.

use unit::limits::{
    MAX_ARGUMENTS, MAX_BOUND, MAX_BRANCHES, MAX_FREE, MAX_NUMERAL, TAGS, WORKSPACE,
};
use unit::word::*;

/// The most words in a workspace.
pub const MAX_C: usize = *WORKSPACE.end();

/// The position after the term or branch at `at`.
pub fn skip(words: &[u32], at: usize) -> usize {
    let mut missing = 1;
    let mut end = at;
    while missing > 0 {
        missing = missing + children(words[end]) - 1;
        end += 1;
    }
    end
}

/// Words that are compared at once.
const AT_ONCE: usize = 8;

/// The first position at which the words differ. Where one list is the start of the other, that is
/// the length of the shorter.
pub fn difference(left: &[u32], right: &[u32]) -> Option<usize> {
    let shorter = left.len().min(right.len());
    let mut at = 0;
    while at + AT_ONCE <= shorter && left[at..at + AT_ONCE] == right[at..at + AT_ONCE] {
        at += AT_ONCE;
    }
    while at < shorter && left[at] == right[at] {
        at += 1;
    }
    (at < left.len().max(right.len())).then_some(at)
}

/// Counts the binders around each word of a term that is read from the left.
pub struct Binders {
    depth: u32,
    /// Terms still to come in the innermost scope.
    missing: usize,
    /// For each scope around it: what is missing there, and the binders that end before that.
    outer: [(u16, u16); MAX_C],
    scopes: usize,
}

impl Binders {
    pub fn new() -> Binders {
        Binders {
            depth: 0,
            missing: 0,
            outer: [(0, 0); MAX_C],
            scopes: 0,
        }
    }

    /// Begins a term.
    pub fn start(&mut self) {
        self.depth = 0;
        self.missing = 1;
        self.scopes = 0;
    }

    /// Binders around the next word.
    pub fn depth(&self) -> u32 {
        self.depth
    }

    /// Goes on to the word after this one.
    pub fn pass(&mut self, word: u32) {
        self.missing -= 1;
        match kind(word) {
            ABSTRACTION => self.bind(1),
            BRANCH => self.bind(count(payload(word))),
            _ => {
                self.missing += children(word);
                self.leave();
            }
        }
    }

    fn bind(&mut self, bound: u32) {
        self.outer[self.scopes] = (self.missing as u16, bound as u16);
        self.scopes += 1;
        self.missing = 1;
        self.depth += bound;
    }

    /// Ends every scope in which nothing is missing.
    fn leave(&mut self) {
        while self.missing == 0 && self.scopes > 0 {
            self.scopes -= 1;
            let (missing, bound) = self.outer[self.scopes];
            self.missing = usize::from(missing);
            self.depth -= u32::from(bound);
        }
    }
}

/// Whether the words are one whole term within all limits.
pub fn whole(words: &[u32], binders: &mut Binders) -> bool {
    well_formed(words) && free_numbers_fit(words, binders)
}

/// Terms or branches that must follow one after the other.
#[derive(Clone, Copy)]
struct Due {
    count: u8,
    branches: bool,
    /// The least tag that the next branch may have.
    least_tag: u16,
}

/// Whether kinds, ranges and structure are those of one term.
fn well_formed(words: &[u32]) -> bool {
    let mut dues = [Due::terms(0); MAX_C + 2];
    dues[0] = Due::terms(1);
    let mut open = 1;
    for &word in words {
        if open == 0 || !in_range(word) || !dues[open - 1].take(word) {
            return false;
        }
        if dues[open - 1].count == 0 {
            open -= 1;
        }
        // A word uses one up and adds at most two, the second for the next word: room enough.
        for due in Due::after(word) {
            if due.count > 0 {
                dues[open] = due;
                open += 1;
            }
        }
    }
    open == 0
}

impl Due {
    fn terms(count: usize) -> Due {
        Due {
            count: count as u8,
            branches: false,
            least_tag: 0,
        }
    }

    /// What must follow a word in range, the first of it last.
    fn after(word: u32) -> [Due; 2] {
        let below = Due::terms(children(word));
        match kind(word) {
            CASE => {
                let branches = Due {
                    count: below.count - 1,
                    branches: true,
                    least_tag: 0,
                };
                [branches, Due::terms(1)]
            }
            _ => [Due::terms(0), below],
        }
    }

    /// Takes the word as the next one, if it may be.
    fn take(&mut self, word: u32) -> bool {
        let is_branch = kind(word) == BRANCH;
        let tag = tag(payload(word)) as u16;
        if is_branch != self.branches || (is_branch && tag < self.least_tag) {
            return false;
        }
        self.least_tag = tag + 1;
        self.count -= 1;
        true
    }
}

fn in_range(word: u32) -> bool {
    let payload = payload(word);
    match kind(word) {
        VARIABLE => true,
        ABSTRACTION | APPLICATION => payload == 0,
        CONSTRUCTOR => TAGS.contains(&tag(payload)) && count(payload) <= MAX_ARGUMENTS,
        BRANCH => payload == 0 || TAGS.contains(&tag(payload)) && count(payload) <= MAX_BOUND,
        CASE => payload <= MAX_BRANCHES,
        NUMERAL => payload <= MAX_NUMERAL,
        _ => false,
    }
}

fn free_numbers_fit(words: &[u32], binders: &mut Binders) -> bool {
    binders.start();
    words.iter().all(|&word| {
        let fits = kind(word) != VARIABLE || payload(word) <= binders.depth() + MAX_FREE;
        binders.pass(word);
        fits
    })
}

#[cfg(test)]
mod tests {
    use super::*;

    fn is_whole(words: &[u32]) -> bool {
        whole(words, &mut Binders::new())
    }

    #[test]
    fn words_differ_first_at_a_position() {
        // Some that are compared at once, and some that are left over.
        let words: Vec<u32> = (0..2 * AT_ONCE as u32 + 5).collect();
        let changed = |positions: &[usize]| {
            let mut words = words.clone();
            positions.iter().for_each(|&position| words[position] += 8);
            words
        };
        assert_eq!(difference(&words, &words), None);
        assert_eq!(difference(&[], &[]), None);
        for first in 0..words.len() {
            let both_ways = |other: &[u32]| {
                assert_eq!(difference(&words, other), Some(first), "{other:?}");
                assert_eq!(difference(other, &words), Some(first), "{other:?}");
            };
            both_ways(&changed(&[first]));
            for later in first + 1..words.len() {
                let other = changed(&[first, later]);
                both_ways(&other);
                both_ways(&other[..later]);
            }
            // One is the start of the other.
            both_ways(&words[..first]);
        }
    }

    #[test]
    fn whole_terms() {
        for words in [
            &[0][..],
            &[2_040],
            &[1, 2_048],
            &[2, 1, 0, 24],
            &[131],
            &[32_643],
            &[147, 0, 8],
            &[4, 0],
            &[12, 0, 133, 2_040],
            &[12, 0, 205, 2_112],
            &[20, 0, 133, 0, 261, 0],
            &[12, 0, 5, 2_040],
            &[28, 0, 5, 0, 133, 0, 32_717, 0],
            &[2, 6, 254],
        ] {
            assert!(is_whole(words), "{words:?}");
        }
    }

    #[test]
    fn words_that_are_no_whole_term() {
        for words in [
            // Missing and surplus words.
            &[][..],
            &[0, 0],
            &[1],
            &[2, 0],
            &[147, 0],
            &[12, 0],
            // Kinds, payloads, tags and counts out of range.
            &[7],
            &[262],
            &[9, 0],
            &[10, 0, 0],
            &[3],
            &[11, 0],
            &[32_771],
            &[12, 0, 13, 0],
            &[12, 0, 125, 0],
            &[12, 0, 32_773, 0],
            // Branches in the place of terms, terms in that of branches, tags that do not rise.
            &[133, 0],
            &[12, 133, 0],
            &[12, 0, 0],
            &[12, 0, 134],
            &[20, 0, 133, 0, 133, 0],
            &[20, 0, 261, 0, 133, 0],
            &[20, 0, 133, 0, 5, 0],
            &[20, 0, 5, 0, 5, 0],
            &[5, 0],
            // Free numbers 256.
            &[2_048],
            &[1, 2_056],
            &[12, 0, 133, 2_048],
            &[12, 0, 5, 2_048],
            &[12, 0, 205, 2_120],
            &[2, 1, 0, 2_048],
        ] {
            assert!(!is_whole(words), "{words:?}");
        }
    }

    #[test]
    fn a_case_has_no_more_branches_than_its_limit() {
        // From tag 0, a default's, and from tag 1.
        for first in 0..2 {
            let case = |branches: u32| {
                let all = (first..first + branches).flat_map(|tag| [tag * 128 + 5, 0]);
                let words: Vec<u32> = [branches * 8 + 4, 0].into_iter().chain(all).collect();
                is_whole(&words)
            };
            assert!(case(MAX_BRANCHES));
            assert!(!case(MAX_BRANCHES + 1));
        }
    }
}
