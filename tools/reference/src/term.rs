//! Terms as trees, with the limits of an accepted term.

use std::ops::RangeInclusive;

/// Lengths that a workspace may have, in words.
pub const WORKSPACE: RangeInclusive<usize> = 16..=2_048;
/// Tags of constructors, and of branches other than a default.
pub const TAGS: RangeInclusive<u32> = 1..=255;
/// The most arguments of a constructor.
pub const MOST_ARGUMENTS: usize = 15;
/// The most variables that a branch binds.
pub const MOST_BOUND: usize = 15;
/// The most branches of a case, a default counted.
pub const MOST_BRANCHES: usize = 15;
/// The largest index in a table or a line.
pub const LARGEST_INDEX: u32 = 32_767;
/// The largest free number.
pub const LARGEST_FREE: u32 = 255;
/// The largest numeral.
pub const LARGEST_NUMERAL: u32 = 31;

/// A term; variables are de Bruijn indices from 0.
#[derive(Clone, Debug, PartialEq, Eq)]
pub enum Term {
    Var(u32),
    Abs(Box<Term>),
    App(Box<Term>, Box<Term>),
    Con {
        tag: u32,
        args: Vec<Term>,
    },
    Case {
        scrutinee: Box<Term>,
        branches: Vec<Branch>,
    },
    /// Stands for the Church numeral, to which it contracts.
    Num(u32),
}

/// A branch of a case; its body stands under `bound` binders. With tag 0 and
/// no binder it is a default, the branch for the constructors that no other
/// branch is for.
#[derive(Clone, Debug, PartialEq, Eq)]
pub struct Branch {
    pub tag: u32,
    pub bound: u32,
    pub body: Term,
}

pub fn var(index: u32) -> Term {
    Term::Var(index)
}

pub fn abs(body: Term) -> Term {
    Term::Abs(Box::new(body))
}

pub fn app(function: Term, argument: Term) -> Term {
    Term::App(Box::new(function), Box::new(argument))
}

pub fn con(tag: u32, args: Vec<Term>) -> Term {
    Term::Con { tag, args }
}

pub fn case(scrutinee: Term, branches: Vec<Branch>) -> Term {
    let scrutinee = Box::new(scrutinee);
    Term::Case {
        scrutinee,
        branches,
    }
}

pub fn num(numeral: u32) -> Term {
    Term::Num(numeral)
}

pub fn branch(tag: u32, bound: u32, body: Term) -> Branch {
    Branch { tag, bound, body }
}

/// A default.
pub fn default(body: Term) -> Branch {
    branch(0, 0, body)
}

impl Branch {
    pub fn is_default(&self) -> bool {
        (self.tag, self.bound) == (0, 0)
    }
}

impl Term {
    /// The number of words of the term: one for each node and each branch.
    pub fn size(&self) -> usize {
        match self {
            Term::Var(_) | Term::Num(_) => 1,
            Term::Abs(body) => 1 + body.size(),
            Term::App(function, argument) => 1 + function.size() + argument.size(),
            Term::Con { args, .. } => 1 + args.iter().map(Term::size).sum::<usize>(),
            Term::Case {
                scrutinee,
                branches,
            } => {
                let arms = branches.iter().map(|branch| 1 + branch.body.size());
                1 + scrutinee.size() + arms.sum::<usize>()
            }
        }
    }

    /// The largest free number in the term, if a variable is free in it.
    pub fn largest_free(&self) -> Option<u32> {
        self.largest_free_under(0)
    }

    fn largest_free_under(&self, binders: u32) -> Option<u32> {
        match self {
            Term::Var(index) => index.checked_sub(binders),
            Term::Abs(body) => body.largest_free_under(binders + 1),
            Term::App(function, argument) => function
                .largest_free_under(binders)
                .max(argument.largest_free_under(binders)),
            Term::Con { args, .. } => args
                .iter()
                .filter_map(|arg| arg.largest_free_under(binders))
                .max(),
            Term::Case {
                scrutinee,
                branches,
            } => branches
                .iter()
                .filter_map(|branch| branch.body.largest_free_under(binders + branch.bound))
                .max()
                .max(scrutinee.largest_free_under(binders)),
            Term::Num(_) => None,
        }
    }

    /// Whether no variable is free in the term.
    pub fn is_closed(&self) -> bool {
        self.largest_free().is_none()
    }

    /// Whether every free number is within its limit.
    pub fn frees_fit(&self) -> bool {
        self.largest_free().is_none_or(|free| free <= LARGEST_FREE)
    }
}

/// Whether the tags of a case's branches rise strictly.
pub fn tags_rise(branches: &[Branch]) -> bool {
    branches.windows(2).all(|pair| pair[0].tag < pair[1].tag)
}
