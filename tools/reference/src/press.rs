//! Rounds, presses with their session, and showing.

use crate::contraction::step;
use crate::position::position;
use crate::refusal::Refusal;
use crate::term::{Term, WORKSPACE};
use crate::words::{read, words};
use std::fmt;

/// The largest budget of one press.
pub const LARGEST_BUDGET: u32 = 1_000_000;
/// The largest sum of a session's total and a budget.
pub const LARGEST_TOTAL: u64 = 1_000_000_000;

#[derive(Clone, Copy, Debug, PartialEq, Eq)]
pub enum Verdict {
    Same,
    Different,
    Budget,
    Full,
}

impl fmt::Display for Verdict {
    fn fmt(&self, f: &mut fmt::Formatter<'_>) -> fmt::Result {
        fmt::Debug::fmt(self, f)
    }
}

/// How rounds end: the verdict, the contractions made and both terms.
#[derive(Clone, Debug, PartialEq, Eq)]
pub struct Rounds {
    pub verdict: Verdict,
    pub spent: u32,
    pub left: Term,
    pub right: Term,
}

impl Rounds {
    /// Where the words of the two terms first differ, if they are Different;
    /// 0 with every other verdict.
    pub fn position(&self) -> u32 {
        match self.verdict {
            Verdict::Different => position(&self.left, &self.right)
                .expect("terms that are Different are unequal")
                as u32,
            _ => 0,
        }
    }
}

/// One round of two terms, in workspaces of `capacity` words: the verdict that
/// ends it before it is made, or the next term of each side that is not normal.
/// `budget` is what earlier rounds left.
pub fn round(
    left: &Term,
    right: &Term,
    capacity: usize,
    budget: u32,
) -> Result<[Option<Term>; 2], Verdict> {
    if left == right {
        return Err(Verdict::Same);
    }
    let next = [step(left), step(right)];
    let moving = contractions(&next);
    if moving == 0 {
        return Err(Verdict::Different);
    }
    if moving > budget {
        return Err(Verdict::Budget);
    }
    if next.iter().flatten().any(|term| term.size() > capacity) {
        return Err(Verdict::Full);
    }
    Ok(next)
}

/// The contractions of a round: one for each side that has a next term.
pub fn contractions(next: &[Option<Term>; 2]) -> u32 {
    next.iter().flatten().count() as u32
}

/// Rounds from two terms, in workspaces of `capacity` words.
pub fn rounds(mut left: Term, mut right: Term, capacity: usize, budget: u32) -> Rounds {
    let mut spent = 0;
    let verdict = loop {
        match round(&left, &right, capacity, budget - spent) {
            Err(verdict) => break verdict,
            Ok(next) => {
                spent += contractions(&next);
                let [next_left, next_right] = next;
                left = next_left.unwrap_or(left);
                right = next_right.unwrap_or(right);
            }
        }
    };
    Rounds {
        verdict,
        spent,
        left,
        right,
    }
}

/// What is kept from press to press.
#[derive(Clone, Copy, Debug, PartialEq, Eq)]
pub struct Session {
    pub total: u32,
    pub left: u32,
    pub right: u32,
    pub verdict: Verdict,
}

impl Session {
    pub fn fresh() -> Self {
        Session {
            total: 0,
            left: 0,
            right: 0,
            verdict: Verdict::Budget,
        }
    }
}

/// What an unrefused press answers.
#[derive(Clone, Copy, Debug, PartialEq, Eq)]
pub struct Answer {
    pub verdict: Verdict,
    pub spent: u32,
    pub left: u32,
    pub right: u32,
    /// Where the current forms first differ, after Different only.
    pub position: u32,
}

/// The fields that both programs print with every verdict.
impl fmt::Display for Answer {
    fn fmt(&self, f: &mut fmt::Formatter<'_>) -> fmt::Result {
        let Answer {
            verdict,
            spent,
            left,
            right,
            ..
        } = self;
        write!(f, "{verdict} {spent} {left} {right}")
    }
}

/// One press on lent workspaces, scratch and session.
pub fn press(
    left: &mut [u32],
    right: &mut [u32],
    scratch: &mut [u32],
    lengths: (u32, u32),
    budget: u32,
    session: &mut Session,
) -> Result<Answer, Refusal> {
    if !lengths_fit(&[left.len(), right.len(), scratch.len()]) {
        return Err(Refusal::Workspace);
    }
    if budget > LARGEST_BUDGET || u64::from(session.total) + u64::from(budget) > LARGEST_TOTAL {
        return Err(Refusal::Budget);
    }
    let left_term = term_in(left, lengths.0)?;
    let right_term = term_in(right, lengths.1)?;
    let end = rounds(left_term, right_term, scratch.len(), budget);
    scratch.fill(0);
    let answer = Answer {
        verdict: end.verdict,
        spent: end.spent,
        left: put(left, &end.left),
        right: put(right, &end.right),
        position: end.position(),
    };
    *session = Session {
        total: session.total + answer.spent,
        left: answer.left,
        right: answer.right,
        verdict: answer.verdict,
    };
    Ok(answer)
}

/// One of the two workspaces.
#[derive(Clone, Copy, Debug, PartialEq, Eq)]
pub enum Side {
    Left,
    Right,
}

/// The side of the shorter current form, or Right at equal lengths, and its
/// length; none if refused, which stands for the empty start of the left
/// workspace.
pub fn show(left: &[u32], right: &[u32], lengths: (u32, u32)) -> Option<(Side, usize)> {
    if !lengths_fit(&[left.len(), right.len()]) {
        return None;
    }
    term_in(left, lengths.0).ok()?;
    term_in(right, lengths.1).ok()?;
    Some(if lengths.0 < lengths.1 {
        (Side::Left, lengths.0 as usize)
    } else {
        (Side::Right, lengths.1 as usize)
    })
}

/// Whether all are lengths of a workspace, and equal.
fn lengths_fit(lengths: &[usize]) -> bool {
    lengths
        .iter()
        .all(|length| WORKSPACE.contains(length) && *length == lengths[0])
}

/// The term in the first `length` words of a workspace.
pub fn term_in(workspace: &[u32], length: u32) -> Result<Term, Refusal> {
    workspace
        .get(..length as usize)
        .and_then(read)
        .ok_or(Refusal::NotATerm)
}

/// Puts a term that fits into a workspace, zeros after it; returns its length.
pub fn put(workspace: &mut [u32], term: &Term) -> u32 {
    let words = words(term);
    let (start, rest) = workspace.split_at_mut(words.len());
    start.copy_from_slice(&words);
    rest.fill(0);
    words.len() as u32
}
