//! What decides which form is shown, on calls made by hand.

mod common;

use reference::choice::{of_call, Choice};
use reference::replay::{Machine, Operation};

fn showing(left: &[u32], right: &[u32], capacity: usize) -> Option<Choice> {
    let (before, show) = common::showing(left, right, capacity);
    of_call(&before, &show)
}

#[test]
fn choices() {
    let met = |left: &[u32], right: &[u32]| showing(left, right, 16).map(|met| met.to_string());
    let shown = |choice: &str| Some(format!("show {choice}"));
    let (one, two, three) = ([8], [1, 0], [1, 1, 0]);
    assert_eq!(met(&one, &two), shown("Left, shorter by one word"));
    assert_eq!(met(&one, &three), shown("Left, shorter by more words"));
    assert_eq!(met(&three, &two), shown("Right, shorter by one word"));
    assert_eq!(met(&three, &one), shown("Right, shorter by more words"));
    assert_eq!(met(&two, &[1, 8]), shown("Right at equal lengths"));
    assert_eq!(met(&two, &two), shown("Right of equal words"));
    assert_eq!(met(&two, &[1, 7]), shown("refused at equal lengths"));
}

#[test]
fn refused_showings() {
    assert_eq!(showing(&[7], &[0], 16), Some(Choice::Refused));
    assert_eq!(showing(&[0], &[0], 15), Some(Choice::Refused));
    assert_eq!(showing(&[7], &[1, 0], 16), None);
    assert_eq!(showing(&[], &[], 16), None);
    assert_eq!(of_call(&Machine::new(16, 16), &Operation::Print), None);
}
