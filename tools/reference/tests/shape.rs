//! The shapes of the forms that presses leave, on calls made by hand.

mod common;

use reference::replay::{Machine, Operation};
use reference::shape::{of_call, Shape};

/// What comes of a press in workspaces of `capacity` words.
fn pressing(left: &[u32], right: &[u32], capacity: usize, budget: u32) -> Vec<Shape> {
    let (before, press) = common::pressing(left, right, capacity, budget);
    of_call(&before, &press)
}

/// A press of normal forms, whichever is left.
fn apart(one: &[u32], other: &[u32]) -> Vec<Shape> {
    let shapes = pressing(one, other, 512, 0);
    assert_eq!(pressing(other, one, 512, 0), shapes);
    shapes
}

#[test]
fn forms_that_differ_at_once() {
    assert_eq!(apart(&[0], &[8]), []);
    assert_eq!(apart(&[0], &[1, 8]), []);
    // 1(f0) and 2(f1).
    assert_eq!(apart(&[139, 0], &[267, 8]), [Shape::Several]);
    assert_eq!(apart(&[0], &[0]), []);
}

#[test]
fn forms_that_differ_behind_equal_words() {
    let lengths = [Shape::Behind, Shape::EqualLengths];
    // 1(f0, f1, f2), and another first or last argument.
    let three = [155, 0, 8, 16];
    assert_eq!(apart(&three, &[155, 8, 8, 16]), lengths);
    let both = [Shape::Behind, Shape::EqualLengths, Shape::Several];
    assert_eq!(apart(&three, &[155, 8, 8, 0]), both);
    let last = [Shape::Behind, Shape::LastWord, Shape::EqualLengths];
    assert_eq!(apart(&three, &[155, 0, 8, 0]), last);
    let last = [Shape::Behind, Shape::LastWord, Shape::UnequalLengths];
    assert_eq!(apart(&three, &[155, 0, 8, 1, 8]), last);
    // Words 1 and 2 differ, 3 does not.
    let unequal = [Shape::Behind, Shape::UnequalLengths, Shape::Several];
    assert_eq!(apart(&[155, 0, 8, 8], &[155, 1, 0, 8, 8]), unequal);
}

#[test]
fn a_hundred_equal_words() {
    // Constructors around a variable.
    let nested = |count, last| [&vec![139; count][..], &[last]].concat();
    let last = [Shape::Behind, Shape::LastWord, Shape::EqualLengths];
    assert_eq!(apart(&nested(99, 0), &nested(99, 8)), last);
    let far = [&[Shape::Behind, Shape::Far][..], &last[1..]].concat();
    assert_eq!(apart(&nested(100, 0), &nested(100, 8)), far);
}

#[test]
fn another_difference_than_before_the_press() {
    // 1((\ 0) f0, f1) against 1(f0, f2), after its contraction.
    let left = [147, 2, 1, 0, 0, 8];
    let moved = [
        Shape::Behind,
        Shape::LastWord,
        Shape::EqualLengths,
        Shape::Moved,
    ];
    assert_eq!(pressing(&left, &[147, 0, 16], 16, 1), moved);
    // (\ 0) f0 against 1(f0): at word 0 before and after.
    assert_eq!(pressing(&[2, 1, 0, 0], &[139, 0], 16, 1), []);
    // (\ 0) f0 against (\ 0) f1: at word 3, then at word 0.
    let moved = [Shape::Moved];
    assert_eq!(pressing(&[2, 1, 0, 0], &[2, 1, 0, 8], 16, 2), moved);
}

#[test]
fn other_verdicts() {
    // 1(f0, 7) against 1(f0, f1), whose next form has 19 words.
    let (left, right) = ([147, 0, 62], [147, 0, 8]);
    assert_eq!(pressing(&left, &right, 16, 0), [Shape::Budget]);
    assert_eq!(pressing(&left, &right, 16, 1), [Shape::Full]);
    // Against f0 the first words differ.
    assert_eq!(pressing(&left, &[0], 16, 0), []);
    assert_eq!(pressing(&left, &[0], 16, 1), []);
    assert_eq!(pressing(&left, &left, 16, 0), []);
    // 1((\ 0) f0, 7) differs from 1(f0, f1) at words 1 and 2, and 1(f0, 7) at
    // word 2 alone; 1((\ 0) f0, f1) comes to be equal.
    let redex = |last| [147, 2, 1, 0, 0, last];
    assert_eq!(pressing(&redex(62), &right, 16, 0), [Shape::Budget]);
    assert_eq!(pressing(&redex(62), &right, 16, 1), [Shape::Budget]);
    assert_eq!(pressing(&redex(8), &right, 16, 1), []);
    // Refused.
    assert_eq!(pressing(&left, &right, 15, 0), []);
    assert_eq!(pressing(&left, &right, 16, 1_000_001), []);
    let show = Operation::Show { lengths: (1, 1) };
    assert_eq!(of_call(&Machine::new(16, 16), &show), []);
}
