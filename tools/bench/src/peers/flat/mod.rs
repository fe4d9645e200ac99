//! A peer on flat words, as the unit keeps them: each round compares and searches both terms from
//! their first word and contracts through a scratch.

mod press;
mod step;
pub(super) mod words;

use unit::limits::WORKSPACE;

use super::table::load;
use super::{Answer, Request};
use press::{press, Side};
use words::MAX_C;

/// The line for the bytes of standard input.
pub fn line(bytes: &[u8]) -> String {
    super::line(bytes, answer)
}

fn answer(request: &Request) -> Result<Answer, u32> {
    let c = request.c as usize;
    if !WORKSPACE.contains(&c) {
        return Err(7);
    }
    let mut workspaces = [[0; MAX_C]; 3];
    let [left, right, scratch] = &mut workspaces;
    let mut left = Side {
        length: load(&request.left, &mut left[..c])?,
        workspace: &mut left[..c],
    };
    let mut right = Side {
        length: load(&request.right, &mut right[..c])?,
        workspace: &mut right[..c],
    };
    press(&mut left, &mut right, &mut scratch[..c], request.budget)
}
