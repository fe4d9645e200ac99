//! Short ways to say what the tests expect.
#![allow(dead_code)]

pub mod census;

use reference::contraction::step;
use reference::encoding::import;
use reference::line::read_line;
use reference::press::{press, Answer, Session, Side, Verdict};
use reference::refusal::Refusal;
use reference::replay::{Machine, Operation};
use reference::table::load;
use reference::term::Term;
use reference::words::{read, words};

/// The rows of a table, without the lines that are empty or comments.
pub fn rows(table: &str) -> impl Iterator<Item = &str> {
    let rows = table.lines().map(str::trim);
    rows.filter(|row| !row.is_empty() && !row.starts_with('#'))
}

/// Numbers as a table has them: `2,1,0`, or `-` for none.
pub fn numbers(text: &str) -> Vec<u32> {
    let number = |number: &str| number.trim().parse().expect("a number");
    match text.trim() {
        "-" => Vec::new(),
        text => text.split(',').map(number).collect(),
    }
}

/// The term of words that a test takes from the rules or derives.
pub fn term(words: &[u32]) -> Term {
    read(words).expect("the test's words are one whole term")
}

/// The words after the leftmost outermost contraction; none if normal.
pub fn next(of: &[u32]) -> Option<Vec<u32>> {
    step(&term(of)).map(|term| words(&term))
}

/// A workspace of `capacity` words that starts with the given ones and goes
/// on with words that must not matter.
pub fn workspace(words: &[u32], capacity: usize) -> Vec<u32> {
    let mut all = words.to_vec();
    all.resize(capacity, 77);
    all
}

/// A machine of workspaces that start with the given words.
pub fn machine(left: &[u32], right: &[u32], capacity: usize) -> Machine {
    let mut machine = Machine::new(capacity as u32, capacity as u32);
    machine.left = workspace(left, capacity);
    machine.right = workspace(right, capacity);
    machine
}

/// A press of two lists of words, with the machine before it.
pub fn pressing(left: &[u32], right: &[u32], capacity: usize, budget: u32) -> (Machine, Operation) {
    let lengths = (left.len() as u32, right.len() as u32);
    let press = Operation::Press {
        scratch: capacity,
        lengths,
        budget,
    };
    (machine(left, right, capacity), press)
}

/// A showing of two lists of words, with the machine before it.
pub fn showing(left: &[u32], right: &[u32], capacity: usize) -> (Machine, Operation) {
    let lengths = (left.len() as u32, right.len() as u32);
    (machine(left, right, capacity), Operation::Show { lengths })
}

/// A writing of the words on the left, with the machine before it.
pub fn writing(left: &[u32], table: usize) -> (Machine, Operation) {
    let write = Operation::Write {
        side: Side::Left,
        length: left.len() as u32,
        table,
    };
    (machine(left, &[], 16), write)
}

/// A load of records on the right, with the machine before it.
pub fn loading(records: &[[u32; 4]]) -> (Machine, Operation) {
    let (side, table) = (Side::Right, table(records));
    (machine(&[], &[], 16), Operation::Load { side, table })
}

/// One press with a fresh session on two lists of words.
pub fn pressed(
    left: &[u32],
    right: &[u32],
    capacity: usize,
    budget: u32,
) -> Result<Answer, Refusal> {
    press(
        &mut workspace(left, capacity),
        &mut workspace(right, capacity),
        &mut vec![7; capacity],
        (left.len() as u32, right.len() as u32),
        budget,
        &mut Session::fresh(),
    )
}

/// What a press answers with another verdict than Different.
pub fn answer(verdict: Verdict, spent: u32, left: u32, right: u32) -> Result<Answer, Refusal> {
    assert_ne!(verdict, Verdict::Different);
    Ok(Answer {
        verdict,
        spent,
        left,
        right,
        position: 0,
    })
}

/// What a press answers with Different.
pub fn different(spent: u32, left: u32, right: u32, position: u32) -> Result<Answer, Refusal> {
    Ok(Answer {
        verdict: Verdict::Different,
        spent,
        left,
        right,
        position,
    })
}

/// The first position at which two lists of words differ, or the length of the
/// one that is the start of the other; none if they are equal.
pub fn flat_position(left: &[u32], right: &[u32]) -> Option<usize> {
    let shorter = left.len().min(right.len());
    let differs = |at: &usize| left[*at] != right[*at];
    let unequal = (left.len() != right.len()).then_some(shorter);
    (0..shorter).find(differs).or(unequal)
}

/// A table whose root is record 1.
pub fn table(records: &[[u32; 4]]) -> Vec<u32> {
    let header = [1, records.len() as u32, 1, 0];
    std::iter::once(&header)
        .chain(records)
        .flatten()
        .copied()
        .collect()
}

/// Loads into a workspace of `capacity` words; the answer and the words.
pub fn loaded(table: &[u32], capacity: usize) -> (Result<u32, Refusal>, Vec<u32>) {
    let mut workspace = vec![77; capacity];
    let answer = load(table, &mut workspace);
    (answer, workspace)
}

/// Reads a line into a workspace of `capacity` words; the answer and the words.
pub fn typed(line: &[u8], capacity: usize) -> (Result<u32, Refusal>, Vec<u32>) {
    let mut workspace = vec![77; capacity];
    let answer = read_line(line, &mut workspace);
    (answer, workspace)
}

/// Imports an encoding into a workspace of `capacity` words; the answer and the
/// words.
pub fn carried(bytes: &[u8], count: u32, capacity: usize) -> (Result<u32, Refusal>, Vec<u32>) {
    let mut workspace = vec![77; capacity];
    let answer = import(bytes, count, &mut workspace);
    (answer, workspace)
}
