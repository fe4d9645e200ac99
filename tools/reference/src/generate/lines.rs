//! Lines of terms, and lines that are refused.

use crate::generate::damage::free_too_large;
use crate::generate::line_damage::{damaged, short, with_fault};
use crate::generate::terms::{term, Style};
use crate::line::{term_of, Fault, FAULTS, LINE};
use crate::random::Random;
use crate::refusal::Refusal;
use crate::table::LONGEST_TABLE;
use crate::term::{var, Term, LARGEST_FREE, WORKSPACE};

/// Tries to meet a wish before any line is taken.
const TRIES: usize = 80;

/// What a line for a workspace of `capacity` words meets past 7.
pub fn refusal(line: &[u8], capacity: usize) -> Option<Refusal> {
    match term_of(line) {
        Err(_) => Some(Refusal::Line),
        Ok(term) if !term.frees_fit() => Some(Refusal::FreeNumber),
        Ok(term) if term.size() > capacity => Some(Refusal::TooLong),
        Ok(_) => None,
    }
}

/// A line of any kind for a workspace of `capacity` words.
pub fn any(random: &mut Random, capacity: usize) -> Vec<u8> {
    match random.below(12) {
        0 | 1 => accepted(random, capacity),
        2..=6 => refused(random, Refusal::Line, capacity),
        7 | 8 => refused(random, Refusal::FreeNumber, capacity),
        9 | 10 if capacity < *LINE.end() => refused(random, Refusal::TooLong, capacity),
        9 | 10 => accepted(random, capacity),
        _ => {
            let line = base(random, capacity);
            damaged(random, line)
        }
    }
}

/// A line that is read into a workspace of `capacity` words.
pub fn accepted(random: &mut Random, capacity: usize) -> Vec<u8> {
    loop {
        let line = base(random, capacity);
        if refusal(&line, capacity).is_none() {
            return line;
        }
    }
}

/// A line that is refused by the number given, one of 6, 8 and 11. Workspaces
/// of 1,024 words and more have no line that is too long for them.
pub fn refused(random: &mut Random, wish: Refusal, capacity: usize) -> Vec<u8> {
    let fault = random.pick(&FAULTS);
    let mut line = Vec::new();
    for _ in 0..TRIES {
        line = match wish {
            Refusal::FreeNumber => with_large_free(random, capacity),
            Refusal::TooLong => with_many_words(random, capacity),
            _ => outside(random, fault, capacity),
        };
        let is_met = match wish {
            Refusal::Line => term_of(&line) == Err(fault),
            _ => refusal(&line, capacity) == Some(wish),
        };
        if is_met {
            break;
        }
    }
    line
}

/// A line of the grammar, most often one that is accepted.
fn base(random: &mut Random, capacity: usize) -> Vec<u8> {
    let most = random.pick(&[6, 12, 30, 100, 300]);
    let any = random.between(1, *LINE.end());
    let few = random.between(1, most);
    match random.below(13) {
        // As many words as the workspace has, in as many bytes.
        0 => terse(random, capacity.min(*LINE.end())),
        1 => of_length(random, *LINE.end()),
        2..=5 => of_length(random, any),
        6 | 7 => of_length(random, few),
        8 => under_binders(random, capacity),
        _ => loop {
            let most = random.pick(&[most, capacity]).min(capacity);
            let size = random.between(1, most);
            let line = any_written(random, size);
            if line.len() <= *LINE.end() {
                break line;
            }
        },
    }
}

/// An index under many binders, bound or free, in a line that most often fits.
fn under_binders(random: &mut Random, capacity: usize) -> Vec<u8> {
    let most = capacity.min(LINE.end() - 3) - 1;
    let any = random.between(1, most);
    let binders = random.pick(&[any, any, most]);
    let largest = LARGEST_FREE as usize;
    let index = random.pick(&[
        0,
        binders - 1,
        binders,
        binders + largest,
        binders + largest,
    ]);
    let line = "\\".repeat(binders) + &index.to_string();
    line.into_bytes()
}

/// The line of a random term of `size` words.
fn any_written(random: &mut Random, size: usize) -> Vec<u8> {
    let term = plain(random, size);
    let extra = random.pick(&[0, 0, 10, 50]);
    written(random, &term, extra)
}

/// A term of variables, abstractions and applications.
fn plain(random: &mut Random, size: usize) -> Term {
    let style = Style {
        redexes: random.pick(&[0, 20, 50]),
        data: 0,
        free: random.pick(&[0, 20, 60]),
        numerals: 0,
        defaults: 0,
        aim: None,
    };
    term(random, size, 0, style)
}

/// Whether a term has a line at all.
pub fn is_plain(term: &Term) -> bool {
    match term {
        Term::Var(_) => true,
        Term::Abs(body) => is_plain(body),
        Term::App(function, argument) => is_plain(function) && is_plain(argument),
        Term::Con { .. } | Term::Case { .. } | Term::Num(_) => false,
    }
}

/// A line of a term that is plain. Parentheses that it needs not stand around
/// `extra` of 100 parts; without them it is the shortest line.
pub fn written(random: &mut Random, term: &Term, extra: usize) -> Vec<u8> {
    let mut writer = Writer {
        random,
        extra,
        line: Vec::new(),
    };
    writer.part(term, true, true);
    writer.line
}

struct Writer<'a> {
    random: &'a mut Random,
    extra: usize,
    line: Vec<u8>,
}

impl Writer<'_> {
    /// Adds a part. It may be an abstraction if it is the last one up to the
    /// end of the line or of its parenthesis, and an application unless it is
    /// an argument.
    fn part(&mut self, term: &Term, may_abstract: bool, may_apply: bool) {
        let needs = match term {
            Term::Abs(_) => !may_abstract,
            Term::App(..) => !may_apply,
            _ => false,
        };
        if needs || self.random.percent(self.extra) {
            self.line.push(b'(');
            self.part(term, true, true);
            self.line.push(b')');
            return;
        }
        match term {
            Term::Abs(body) => {
                self.line.push(b'\\');
                self.part(body, true, true);
            }
            Term::App(function, argument) => {
                self.part(function, false, true);
                self.line.push(b' ');
                self.part(argument, may_abstract, false);
            }
            Term::Var(index) => self.line.extend(index.to_string().bytes()),
            other => panic!("no line has {other:?}"),
        }
    }
}

/// A line of the grammar of exactly so many bytes, with no free number above
/// its limit.
pub fn of_length(random: &mut Random, length: usize) -> Vec<u8> {
    let any = Maker {
        abstractions: random.pick(&[5, 30, 30, 97]),
        applications: random.pick(&[5, 50, 90]),
        parentheses: random.pick(&[5, 50, 90]),
        short: random.pick(&[10, 60, 100]),
    };
    let maker = random.pick(&[any, any, any, SPINE, NEST]);
    maker.line(random, length)
}

/// Many items in a row.
const SPINE: Maker = Maker {
    abstractions: 0,
    applications: 100,
    parentheses: 1,
    short: 100,
};

/// Many parentheses around each other.
const NEST: Maker = Maker {
    abstractions: 1,
    applications: 1,
    parentheses: 99,
    short: 50,
};

/// A line that has as many words as bytes.
pub fn terse(random: &mut Random, length: usize) -> Vec<u8> {
    let maker = Maker {
        abstractions: random.pick(&[2, 30, 70]),
        applications: 100,
        parentheses: 0,
        short: 100,
    };
    maker.line(random, length)
}

/// What a line of the grammar is rich in, each in per cent.
#[derive(Clone, Copy)]
struct Maker {
    /// Terms that begin with an abstraction.
    abstractions: usize,
    /// Other terms that are an application.
    applications: usize,
    /// Items that are a term in parentheses.
    parentheses: usize,
    /// Items of an application, before its last, that are short.
    short: usize,
}

impl Maker {
    fn line(&self, random: &mut Random, length: usize) -> Vec<u8> {
        let mut line = Vec::new();
        self.term(random, &mut line, length, 0);
        line
    }

    /// Adds a term of so many bytes, at least 1.
    fn term(&self, random: &mut Random, line: &mut Vec<u8>, length: usize, binders: u32) {
        // Of two bytes with one digit a term is an abstraction.
        let terse = self.parentheses == 0 && length == 2;
        if length > 1 && (terse || random.percent(self.abstractions)) {
            line.push(b'\\');
            self.term(random, line, length - 1, binders + 1);
        } else if length > 2 && random.percent(self.applications) {
            let least = 1 + usize::from(self.parentheses > 0) * random.below(3);
            let any = random.between(1, length - 2);
            let item = match random.percent(self.short) {
                true => least.min(length - 2),
                false => any,
            };
            self.item(random, line, item, binders);
            line.push(b' ');
            self.term(random, line, length - item - 1, binders);
        } else {
            self.item(random, line, length, binders);
        }
    }

    /// Adds an index or a term in parentheses.
    fn item(&self, random: &mut Random, line: &mut Vec<u8>, length: usize, binders: u32) {
        let index = index(random, length, binders);
        match index {
            Some(index) if length < 3 || !random.percent(self.parentheses) => {
                line.extend(index.to_string().bytes());
            }
            _ => {
                line.push(b'(');
                self.term(random, line, length - 2, binders);
                line.push(b')');
            }
        }
    }
}

/// An index of so many digits with an allowed free number, if there is one.
fn index(random: &mut Random, digits: usize, binders: u32) -> Option<u32> {
    let least = match digits {
        1 => 0,
        2..=4 => 10_u32.pow(digits as u32 - 1),
        _ => return None,
    };
    let most = (10_u32.pow(digits as u32) - 1).min(binders + LARGEST_FREE);
    let any = (least <= most).then(|| random.between(least as usize, most as usize) as u32)?;
    Some(random.pick(&[any, any, most]))
}

/// A line with a free number above its limit, now and then with more words
/// than the workspace has as well.
fn with_large_free(random: &mut Random, capacity: usize) -> Vec<u8> {
    let from = match random.below(3) {
        0 => with_many_words(random, capacity),
        1 => base(random, capacity),
        _ => {
            let size = random.between(1, 30);
            any_written(random, size)
        }
    };
    // A line that is too long by itself has no term.
    let term = term_of(&from).unwrap_or(var(0));
    let term = free_too_large(random, &term);
    let extra = random.pick(&[0, 0, 20]);
    written(random, &term, extra)
}

/// A line with more words than the workspace has.
fn with_many_words(random: &mut Random, capacity: usize) -> Vec<u8> {
    let least = capacity + 1;
    let more = random.between(least, capacity + 40);
    let words = random.pick(&[least, least, more, 2 * capacity]);
    match random.percent(50) {
        true => any_written(random, words.min(*WORKSPACE.end())),
        false => terse(random, words.min(*LINE.end())),
    }
}

/// A line that most often has the fault.
fn outside(random: &mut Random, fault: Fault, capacity: usize) -> Vec<u8> {
    let line = match random.below(12) {
        _ if fault == Fault::Length => return with_wrong_length(random),
        0 | 1 => return short(random),
        2 => with_large_free(random, capacity),
        3 => with_many_words(random, capacity),
        _ => base(random, capacity),
    };
    with_fault(random, fault, line)
}

/// No byte, or more than a line has in lines that are right otherwise.
fn with_wrong_length(random: &mut Random) -> Vec<u8> {
    let least = LINE.end() + 1;
    let near = random.between(least, least + 5);
    let any = random.between(least, LONGEST_TABLE);
    match random.pick(&[0, 0, least, least, near, near, any, LONGEST_TABLE]) {
        0 => Vec::new(),
        length => of_length(random, length),
    }
}
