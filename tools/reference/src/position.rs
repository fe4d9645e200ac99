//! Where the words of two terms first differ, found on their trees.

use crate::term::{Branch, Term};

/// The position, counted from 0, of the first word in which two terms differ;
/// none if they are equal.
pub fn position(left: &Term, right: &Term) -> Option<usize> {
    let mut walk = Walk { shared: 0 };
    (!walk.terms((left, right))).then_some(walk.shared)
}

/// A walk through two trees in the order of their words, side by side. Nodes
/// with equal words have as many parts, so neither side can end first.
struct Walk {
    /// The words passed so far, which are equal on both sides.
    shared: usize,
}

impl Walk {
    /// Goes on to the first difference; whether there is none.
    fn terms(&mut self, pair: (&Term, &Term)) -> bool {
        match pair {
            (Term::Var(one), Term::Var(other)) => self.pass(one == other),
            (Term::Abs(one), Term::Abs(other)) => self.pass(true) && self.terms((one, other)),
            (Term::App(one, argument), Term::App(other, other_argument)) => {
                self.pass(true)
                    && self.terms((one, other))
                    && self.terms((argument, other_argument))
            }
            (
                Term::Con { tag, args },
                Term::Con {
                    tag: other,
                    args: others,
                },
            ) => {
                self.pass((tag, args.len()) == (other, others.len()))
                    && args.iter().zip(others).all(|pair| self.terms(pair))
            }
            (
                Term::Case {
                    scrutinee: one,
                    branches,
                },
                Term::Case {
                    scrutinee: other,
                    branches: others,
                },
            ) => {
                self.pass(branches.len() == others.len())
                    && self.terms((one, other))
                    && branches.iter().zip(others).all(|pair| self.branches(pair))
            }
            (Term::Num(one), Term::Num(other)) => self.pass(one == other),
            _ => false,
        }
    }

    fn branches(&mut self, (one, other): (&Branch, &Branch)) -> bool {
        self.pass((one.tag, one.bound) == (other.tag, other.bound))
            && self.terms((&one.body, &other.body))
    }

    /// Passes one word if it is equal on both sides.
    fn pass(&mut self, equal: bool) -> bool {
        self.shared += usize::from(equal);
        equal
    }
}
