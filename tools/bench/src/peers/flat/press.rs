//! A press: rounds of leftmost outermost contractions.

use unit::limits::{MAX_BUDGET, WORKSPACE};

use super::step::{leftmost, Redex, Walks};
use super::words::{difference, whole, Binders};
use crate::peers::{Answer, Verdict};

/// A workspace and the length of the term in it.
pub struct Side<'a> {
    pub workspace: &'a mut [u32],
    pub length: usize,
}

impl Side<'_> {
    fn term(&self) -> &[u32] {
        &self.workspace[..self.length]
    }

    fn is_whole(&self, binders: &mut Binders) -> bool {
        (1..=self.workspace.len()).contains(&self.length) && whole(self.term(), binders)
    }

    fn outgrows(&self, redex: &Option<Redex>, walks: &mut Walks) -> bool {
        redex.as_ref().is_some_and(|redex| {
            redex.next_length(self.term(), &mut walks.body) > self.workspace.len()
        })
    }

    fn contract(&mut self, redex: &Option<Redex>, scratch: &mut [u32], walks: &mut Walks) {
        if let Some(redex) = redex {
            self.length = redex.contract(self.workspace, self.length, scratch, walks);
        }
    }

    fn clear_rest(&mut self) {
        self.workspace[self.length..].fill(0);
    }
}

/// One press by a fresh session, or the number of its refusal.
pub fn press(
    left: &mut Side,
    right: &mut Side,
    scratch: &mut [u32],
    budget: u32,
) -> Result<Answer, u32> {
    let c = left.workspace.len();
    if !WORKSPACE.contains(&c) || right.workspace.len() != c || scratch.len() != c {
        return Err(7);
    }
    if budget > MAX_BUDGET {
        return Err(9);
    }
    let mut walks = Walks {
        body: Binders::new(),
        argument: Binders::new(),
    };
    if !left.is_whole(&mut walks.body) || !right.is_whole(&mut walks.body) {
        return Err(10);
    }
    let (verdict, spent) = rounds(left, right, scratch, budget, &mut walks);
    left.clear_rest();
    right.clear_rest();
    scratch.fill(0);
    Ok(Answer {
        verdict,
        spent,
        left: left.length,
        right: right.length,
    })
}

fn rounds(
    left: &mut Side,
    right: &mut Side,
    scratch: &mut [u32],
    budget: u32,
    walks: &mut Walks,
) -> (Verdict, u32) {
    let mut spent = 0;
    loop {
        let Some(position) = difference(left.term(), right.term()) else {
            return (Verdict::Same, spent);
        };
        let redexes = (leftmost(left.term()), leftmost(right.term()));
        let moving = u32::from(redexes.0.is_some()) + u32::from(redexes.1.is_some());
        if moving == 0 {
            return (Verdict::Different { position }, spent);
        }
        if spent + moving > budget {
            return (Verdict::Budget, spent);
        }
        if left.outgrows(&redexes.0, walks) || right.outgrows(&redexes.1, walks) {
            return (Verdict::Full, spent);
        }
        left.contract(&redexes.0, scratch, walks);
        right.contract(&redexes.1, scratch, walks);
        spent += moving;
    }
}
