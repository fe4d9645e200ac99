//! The program `replay`: a script of calls, which it makes one after the other.

use std::fmt;

use crate::limits::WORKSPACE;
use crate::table::table;
use crate::term::Term;

/// The numbers of the operations.
const LOAD: u32 = 1;
const PRESS: u32 = 2;
const SHOW: u32 = 3;
const SET_SESSION: u32 = 5;
const PRINT: u32 = 7;

/// A fresh session: total, both lengths and the number of the verdict Budget.
const FRESH: [u32; 4] = [0, 0, 0, 2];

#[derive(Clone, Copy, Debug, PartialEq, Eq)]
pub enum Side {
    Left,
    Right,
}

impl fmt::Display for Side {
    fn fmt(&self, f: &mut fmt::Formatter) -> fmt::Result {
        f.pad(match self {
            Side::Left => "left",
            Side::Right => "right",
        })
    }
}

/// Operations on two workspaces of the same number of words, and on one session.
pub struct Script {
    /// The words of a workspace and of a scratch.
    c: u32,
    words: Vec<u32>,
}

impl Script {
    /// Workspaces of `c` words. What is above the limit is lent with one word too many, which the calls refuse.
    pub fn new(c: u32) -> Script {
        let c = c.min(1 + *WORKSPACE.end() as u32);
        Script {
            c,
            words: vec![c, c],
        }
    }

    /// Loads a term of at most as many words as a workspace may have.
    pub fn load(&mut self, side: Side, term: &Term) {
        let table = table(term);
        let count = u32::try_from(table.len()).expect("a table has fewer than 2^32 words");
        self.words.extend([LOAD, side as u32, count]);
        self.words.extend(table);
    }

    pub fn fresh_session(&mut self) {
        self.words.push(SET_SESSION);
        self.words.extend(FRESH);
    }

    pub fn press(&mut self, [left, right]: [u32; 2], budget: u32) {
        self.words.extend([PRESS, self.c, left, right, budget]);
    }

    pub fn show(&mut self, [left, right]: [u32; 2]) {
        self.words.extend([SHOW, left, right]);
    }

    pub fn print(&mut self) {
        self.words.push(PRINT);
    }

    /// Standard input of the program.
    pub fn bytes(&self) -> Vec<u8> {
        self.words
            .iter()
            .copied()
            .flat_map(u32::to_le_bytes)
            .collect()
    }
}
