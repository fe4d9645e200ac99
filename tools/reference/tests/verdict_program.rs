//! The verdict program on whole inputs; expectations follow from the
//! rules' section on it.

mod common;

use common::table;
use reference::input::bytes;
use reference::verdict::outcome;

/// (\ 0) f0 in prefix order: 1 is the application, 2 the abstraction with
/// its body 3, 4 the argument.
const I_F0: [[u32; 4]; 4] = [[2, 0, 2, 0], [1, 0, 3, 4], [0, 0, 0, 0], [0, 0, 0, 0]];
const F0: [[u32; 4]; 1] = [[0, 0, 0, 0]];
const F1: [[u32; 4]; 1] = [[0, 1, 0, 0]];

fn input(budget: u32, capacity: u32, left: &[u32], right: &[u32]) -> Vec<u8> {
    let (count, other) = (left.len() as u32, right.len() as u32);
    bytes(&[&[budget, capacity, count][..], left, &[other], right].concat())
}

fn line(budget: u32, capacity: u32, left: &[u32], right: &[u32]) -> String {
    outcome(&input(budget, capacity, left, right)).to_string()
}

#[test]
fn worked_example_of_the_rules() {
    // 2,2,1,1,8,0,8: record 1 applies 2 to 7, and 2 applies 3 to 6.
    let left = table(&[
        [2, 0, 2, 0],
        [2, 0, 3, 7],
        [1, 0, 4, 6],
        [1, 0, 5, 0],
        [0, 1, 0, 0],
        [0, 0, 0, 0],
        [0, 1, 0, 0],
    ]);
    assert_eq!(line(10, 16, &left, &table(&F0)), "Same 2 1 1\n");
}

#[test]
fn lines_of_the_verdicts() {
    let (redex, f0, f1) = (table(&I_F0), table(&F0), table(&F1));
    assert_eq!(line(1, 16, &redex, &f0), "Same 1 1 1\n");
    assert_eq!(line(1, 16, &redex, &f1), "Different 1 1 1 0\n");
    assert_eq!(line(0, 16, &f1, &redex), "Budget 0 1 4\n");
    // W W: 13 words that become 20. W is \ 0 0 0, records 2 to 7 and 8 to 13.
    let mut records = vec![[2, 0, 2, 0]];
    for (first, next) in [(2, 8), (8, 0)] {
        records.extend([
            [1, 0, first + 1, next],
            [2, 0, first + 2, 0],
            [2, 0, first + 3, first + 5],
            [0, 0, 0, first + 4],
            [0, 0, 0, 0],
            [0, 0, 0, 0],
        ]);
    }
    assert_eq!(line(1, 16, &table(&records), &f0), "Full 0 13 1\n");
}

#[test]
fn missing_and_surplus_bytes() {
    let good = input(1, 16, &table(&I_F0), &table(&F0));
    assert_eq!(outcome(&good).to_string(), "Same 1 1 1\n");
    for length in 0..good.len() {
        assert_eq!(outcome(&good[..length]).to_string(), "Input\n", "{length}");
    }
    for surplus in 1..=8 {
        let longer = [&good[..], &vec![0; surplus]].concat();
        assert_eq!(outcome(&longer).to_string(), "Input\n", "{surplus}");
    }
}

#[test]
fn counts_above_8196() {
    let f0 = table(&F0);
    // A table of 8,196 words is read, and refused since its count is 1.
    let mut long = f0.clone();
    long.resize(8_196, 0);
    assert_eq!(line(0, 16, &long, &f0), "Refused 1\n");
    assert_eq!(line(0, 16, &f0, &long), "Refused 1\n");
    long.push(0);
    assert_eq!(line(0, 16, &long, &f0), "Input\n");
    assert_eq!(line(0, 16, &f0, &long), "Input\n");
    // Counts whose bytes would fall back into 32 bits.
    for count in [1 << 30, (1 << 30) + 8, u32::MAX] {
        let words = [&[0, 16, count][..], &f0, &[8], &f0].concat();
        assert_eq!(outcome(&bytes(&words)).to_string(), "Input\n");
    }
}

#[test]
fn input_comes_before_every_refusal() {
    let mut wrong = input(u32::MAX, 15, &[], &[]);
    assert_eq!(outcome(&wrong).to_string(), "Refused 7\n");
    wrong.push(0);
    assert_eq!(outcome(&wrong).to_string(), "Input\n");
}

#[test]
fn lengths_of_workspaces() {
    let f0 = table(&F0);
    for capacity in [16, 17, 2_047, 2_048] {
        assert_eq!(line(0, capacity, &f0, &f0), "Same 0 1 1\n", "{capacity}");
    }
    for capacity in [0, 1, 15, 2_049, 2_050, 65_552, (1 << 31) + 16, u32::MAX] {
        assert_eq!(line(0, capacity, &f0, &f0), "Refused 7\n", "{capacity}");
    }
}

#[test]
fn left_then_right_then_press() {
    let f0 = table(&F0);
    let no_form = [2, 1, 1, 0, 0, 0, 0, 0];
    // The left's refusal 2 comes before the right's refusal 1, and any
    // refusal of loading before the budget's.
    assert_eq!(line(1_000_001, 16, &no_form, &[]), "Refused 2\n");
    assert_eq!(line(1_000_001, 16, &[], &no_form), "Refused 1\n");
    assert_eq!(line(1_000_001, 16, &f0, &no_form), "Refused 2\n");
    assert_eq!(line(1_000_001, 16, &f0, &f0), "Refused 9\n");
    assert_eq!(line(1_000_000, 16, &f0, &f0), "Same 0 1 1\n");
}
