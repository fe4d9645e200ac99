//! Encodings of closed terms, encodings that are refused, and terms that have
//! none.

use crate::encoding::{bits_of, packed, term_of, Fault, FAULTS};
use crate::exchange::Other;
use crate::generate::encoding_damage::{in_other_order, random_bits, with_fault};
use crate::generate::terms::{numeral, replace, subterms, term, Style};
use crate::random::Random;
use crate::refusal::Refusal;
use crate::table::LONGEST_TABLE;
use crate::term::{abs, app, branch, case, con, default, var, Term, LARGEST_FREE};

/// The most bits that a script lends.
pub const MOST_BITS: usize = 8 * LONGEST_TABLE;

/// Bytes, and how many of their bits are counted.
#[derive(Clone, Debug, PartialEq, Eq)]
pub struct Encoding {
    pub bytes: Vec<u8>,
    pub count: u32,
}

impl Encoding {
    /// As few bytes as hold the bits.
    pub fn of_bits(bits: &[bool]) -> Self {
        Encoding {
            bytes: packed(bits),
            count: bits.len() as u32,
        }
    }

    pub fn of(term: &Term) -> Self {
        Encoding::of_bits(&bits_of(term).expect("only three kinds have bits"))
    }

    /// What the encoding meets past 7 in a workspace of `capacity` words.
    pub fn refusal(&self, capacity: usize) -> Option<Refusal> {
        match term_of(&self.bytes, self.count) {
            Err(_) => Some(Refusal::Bits),
            Ok(term) if term.size() > capacity => Some(Refusal::TooLong),
            Ok(term) if !term.is_closed() => Some(Refusal::NoEncoding),
            Ok(_) => None,
        }
    }

    /// The encoding with bytes of zeros behind it, now and then.
    pub fn with_spare(mut self, random: &mut Random) -> Self {
        let few = random.between(1, 9);
        let spare = random.pick(&[0, 0, 0, 0, 1, few, few, 40]);
        let length = self.bytes.len();
        self.bytes.resize((length + spare).min(LONGEST_TABLE), 0);
        if random.percent(1) {
            self.bytes.resize(LONGEST_TABLE, 0);
        }
        self
    }
}

/// An encoding of any kind for a workspace of `capacity` words.
pub fn any(random: &mut Random, capacity: usize) -> Encoding {
    match random.below(44) {
        0..=9 => accepted(random, capacity),
        10..=18 => faulty(random, capacity),
        19..=22 => {
            let term = too_long(random, capacity);
            Encoding::of(&term).with_spare(random)
        }
        23..=27 => {
            let term = any_closed(random, capacity);
            opened(random, &term)
        }
        28..=30 => {
            let term = too_long(random, capacity);
            opened(random, &term)
        }
        31..=38 => faulty_twice(random, capacity),
        39 | 40 => {
            let term = any_closed(random, capacity);
            in_other_order(random, Encoding::of(&term))
        }
        41 | 42 => random_bits(random),
        _ => huge(random),
    }
}

/// An encoding that is accepted in a workspace of `capacity` words.
pub fn accepted(random: &mut Random, capacity: usize) -> Encoding {
    let term = any_closed(random, capacity);
    Encoding::of(&term).with_spare(random)
}

/// An encoding that is refused by 12, by one fault.
pub fn faulty(random: &mut Random, capacity: usize) -> Encoding {
    let fault = random.pick(&FAULTS);
    let term = any_closed(random, capacity);
    with_fault(random, fault, Encoding::of(&term))
}

/// An encoding that is refused by 12 and would be by 8 or 13, most often with a
/// whole term.
fn faulty_twice(random: &mut Random, capacity: usize) -> Encoding {
    let whole = random.pick(&[Fault::LeftOver, Fault::Padding]);
    let any = random.pick(&FAULTS);
    let fault = random.pick(&[whole, whole, any]);
    let long = too_long(random, capacity);
    let encoding = match random.percent(70) {
        true => Encoding::of(&long),
        false => {
            let term = any_closed(random, capacity);
            opened(random, &term)
        }
    };
    with_fault(random, fault, encoding)
}

/// A closed term of at most `most` words, at least 16; now and then of so many.
pub fn any_closed(random: &mut Random, most: usize) -> Term {
    let few = random.between(2, most.min(24));
    let some = random.between(2, most.min(120));
    let any = random.between(2, most);
    match random.below(12) {
        0..=2 => closed(random, few),
        3 | 4 => closed(random, some),
        5 => closed(random, any),
        6 | 7 => closed(random, most),
        _ => with_run(random, most),
    }
}

/// A closed term of so many words, at least 2, whose encoding can be lent.
pub fn closed(random: &mut Random, size: usize) -> Term {
    loop {
        let term = match random.below(4) {
            0 => {
                let binders = size - 1;
                let any = random.below(binders);
                let index = random.pick(&[0, any, binders - 1, binders - 1]);
                under(binders, var(index as u32))
            }
            _ => {
                let style = plain(random);
                abs(term(random, size - 1, 1, style))
            }
        };
        if can_be_lent(&term) {
            return term;
        }
    }
}

fn can_be_lent(term: &Term) -> bool {
    bits_of(term).is_some_and(|bits| bits.len() <= MOST_BITS)
}

/// Variables that are bound, abstractions and applications.
fn plain(random: &mut Random) -> Style {
    Style {
        redexes: random.pick(&[0, 20, 50]),
        data: 0,
        free: 0,
        numerals: 0,
        defaults: 0,
        aim: None,
    }
}

/// So many abstractions around a body.
pub fn under(binders: usize, body: Term) -> Term {
    (0..binders).fold(body, |body, _| abs(body))
}

/// Lengths of runs around those of machine words.
const RUNS: [usize; 12] = [7, 8, 31, 32, 33, 63, 64, 65, 127, 128, 129, 192];

/// A term of at most `most` words with a long run of ones, which begins or ends
/// at the edge of a byte or of 64 bits where a variable before it allows that.
fn with_run(random: &mut Random, most: usize) -> Term {
    let longest = most - 3;
    let any = random.between(1, longest);
    let binders = random.pick(&[any, longest, longest.min(70), longest.min(140)]);
    let some = random.between(1, binders);
    let of_list = random.pick(&RUNS);
    let ones = random.pick(&[some, binders, of_list, of_list]).min(binders);
    let run = var(ones as u32 - 1);
    // The abstractions, an application and a variable of index 0 are before it.
    let before = 2 * binders + 4;
    let edge = random.pick(&[8, 64, 64]);
    let place = before + random.pick(&[0, ones, ones, ones + 1]);
    let index = place.next_multiple_of(edge) - place;
    let body = match index < binders {
        true => app(var(index as u32), run),
        false => run,
    };
    under(binders, body)
}

/// A closed term of more words than the workspace has.
fn too_long(random: &mut Random, capacity: usize) -> Term {
    let least = capacity + 1;
    let more = random.between(least, capacity + 40);
    let size = random.pick(&[least, least, least, more, 2 * capacity]);
    closed(random, size)
}

/// The encoding of the term with a variable that is free, most often by one.
fn opened(random: &mut Random, term: &Term) -> Encoding {
    let term = open(random, term);
    match can_be_lent(&term) {
        true => Encoding::of(&term).with_spare(random),
        false => Encoding::of(&var(0)),
    }
}

/// The term with a variable that is free, most often by one.
pub fn open(random: &mut Random, term: &Term) -> Term {
    let parts = subterms(term);
    let variables: Vec<usize> = (0..parts.len())
        .filter(|at| matches!(parts[*at].0, Term::Var(_)))
        .collect();
    let place = random.pick(&variables);
    let free = random.pick(&[0, 0, 0, 0, 1, 2, LARGEST_FREE]);
    replace(term, place, &var(parts[place].1 + free))
}

/// A term of at most `most` words, at least 16, that has no encoding by one thing
/// alone.
pub fn without_encoding(random: &mut Random, other: Other, most: usize) -> Term {
    loop {
        let size = random.between(2, most.min(60));
        let term = closed(random, size);
        let term = match other {
            Other::Free => open(random, &term),
            _ => with_other(random, other, &term),
        };
        if term.size() <= most {
            return term;
        }
    }
}

fn with_other(random: &mut Random, other: Other, term: &Term) -> Term {
    let parts = subterms(term);
    let place = random.below(parts.len());
    let part = || parts[place].0.clone();
    let tag = random.between(1, 3) as u32;
    let part = match other {
        Other::Constructor => match random.below(3) {
            0 => con(tag, Vec::new()),
            1 => con(tag, vec![part()]),
            _ => con(tag, vec![part(), part()]),
        },
        Other::Case => match random.below(3) {
            0 => case(part(), Vec::new()),
            1 => case(part(), vec![branch(tag, 1, var(0))]),
            _ => case(part(), vec![default(part())]),
        },
        _ => numeral(random),
    };
    replace(term, place, &part)
}

/// An encoding of nearly as many bits as a script lends.
fn huge(random: &mut Random) -> Encoding {
    let bits = |pair: [bool; 2], count: usize| pair.repeat(count);
    let ones = |count: usize| vec![true; count];
    let (abstraction, application) = ([false, false], [false, true]);
    let half = MOST_BITS / 2;
    let all = match random.below(8) {
        // A run to the last bit, then one without an end.
        0 => [ones(MOST_BITS - 1), vec![false]].concat(),
        1 => ones(MOST_BITS),
        // Cut to 16 bits the index would be bound.
        2 => [bits(abstraction, 1), ones(65_537), vec![false]].concat(),
        // As deep as it goes, to one side and to the other.
        3 => [bits(abstraction, half - 1), vec![true, false]].concat(),
        4 => bits(abstraction, half),
        5 => {
            let deep = random.between(4_000, half / 2 - 1);
            let items = [true, false].repeat(deep + 1);
            [bits(application, deep), items].concat()
        }
        6 => bits(application, half),
        _ => bits_of(&wide(random)).expect("only three kinds have bits"),
    };
    Encoding::of_bits(&all)
}

/// A closed term of some 2,000 words at most with nearly as many bits as a
/// script lends.
pub fn wide(random: &mut Random) -> Term {
    loop {
        let binders = random.between(70, 200);
        // Each item but the first is behind an application.
        let of_item = binders + 3;
        let room = MOST_BITS + 2 - 2 * binders;
        if room % of_item < 32 {
            return wide_of(binders, room / of_item);
        }
    }
}

/// So many items, each the outermost of the variables.
pub fn wide_of(binders: usize, items: usize) -> Term {
    let item = || var(binders as u32 - 1);
    under(
        binders,
        (1..items).fold(item(), |spine, _| app(spine, item())),
    )
}
