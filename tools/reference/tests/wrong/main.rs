//! Judges, readers of lines, importers, exporters and choices of the form to show with
//! one mistake each: the generated inputs and scripts have to tell every one of them
//! from the reference. Those without a mistake must agree.

#[path = "../common/mod.rs"]
mod common;

use reference::press::Side;
use reference::replay::Machine;
use std::fmt::Debug;

/// An enumeration of mistakes with `Nothing` before them, and lists of them.
macro_rules! mistakes {
    ($name:ident; $($list:ident: $($mistake:ident),+;)+) => {
        #[derive(Clone, Copy, Debug, Default, PartialEq, Eq)]
        enum $name {
            #[default]
            Nothing,
            $($($mistake),+),+
        }

        $(const $list: &[$name] = &[$($name::$mistake),+];)+
    };
}

mod choices;
mod encodings;
mod judges;
mod lines;
mod positions;

/// How often each mistake is told from the right answer.
struct Told<M> {
    mistakes: Vec<M>,
    counts: Vec<usize>,
}

impl<M: Copy + Debug + Default> Told<M> {
    fn of(mistakes: &[M]) -> Self {
        Told {
            mistakes: mistakes.to_vec(),
            counts: vec![0; mistakes.len()],
        }
    }

    /// Looks at the answers in one case; without a mistake it is the expected one.
    fn look<A: Debug + PartialEq>(&mut self, expected: &A, answer: impl Fn(M) -> A) {
        assert_eq!(answer(M::default()), *expected);
        for (mistake, count) in self.mistakes.iter().zip(&mut self.counts) {
            *count += usize::from(answer(*mistake) != *expected);
        }
    }

    fn assert_all(&self, least: usize) {
        for (mistake, count) in self.mistakes.iter().zip(&self.counts) {
            assert!(*count >= least, "{mistake:?}: {count}");
        }
    }
}

/// The number of the first check that is met.
fn first_met(checks: &[(bool, u32)]) -> Option<u32> {
    checks.iter().find(|check| check.0).map(|check| check.1)
}

fn workspace(machine: &Machine, side: Side) -> &[u32] {
    match side {
        Side::Left => &machine.left,
        Side::Right => &machine.right,
    }
}
