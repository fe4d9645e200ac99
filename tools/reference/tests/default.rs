//! The parts of defaults in answers, on calls made by hand.

mod common;

use reference::default::{of_call, Fault, Role};
use reference::press::Verdict;
use reference::replay::{Machine, Operation};

const VARIABLE: [u32; 4] = [0, 0, 0, 0];

fn of((before, operation): (Machine, Operation)) -> Vec<Role> {
    of_call(&before, &operation)
}

fn loading(records: &[[u32; 4]]) -> Vec<Role> {
    of(common::loading(records))
}

/// Loads a case of a variable with branches of two values.
fn loading_case(values: [u32; 2]) -> Vec<Role> {
    loading(&[
        [4, 0, 2, 0],
        [0, 0, 0, 3],
        [5, values[0], 4, 5],
        VARIABLE,
        [5, values[1], 6, 0],
        VARIABLE,
    ])
}

fn pressing(left: &[u32], right: &[u32], budget: u32) -> Vec<Role> {
    of(common::pressing(left, right, 16, budget))
}

#[test]
fn loading_a_default() {
    assert_eq!(loading_case([0, 16]), [Role::Loaded]);
    assert_eq!(loading_case([16, 32]), []);
    assert_eq!(loading_case([1, 16]), [Role::Load(Fault::Binds)]);
    assert_eq!(loading_case([16, 15]), [Role::Load(Fault::Binds)]);
    assert_eq!(loading(&[[3, 0, 0, 0]]), [Role::Load(Fault::Constructor)]);
    assert_eq!(loading_case([16, 0]), [Role::Load(Fault::Place)]);
    assert_eq!(loading_case([0, 0]), [Role::Load(Fault::Place)]);
    // Falling tags of others, and values that are wrong for another reason.
    assert_eq!(loading_case([32, 16]), []);
    assert_eq!(loading_case([1, 4_096]), []);
    assert_eq!(loading(&[[3, 256, 0, 0]]), []);
}

#[test]
fn taking_a_default() {
    // case 3() of _ -> f0 against f0 and f1.
    let taken = [12, 387, 5, 0];
    assert_eq!(pressing(&taken, &[0], 1), [Role::Taken(Verdict::Same)]);
    assert_eq!(pressing(&[0], &taken, 1), [Role::Taken(Verdict::Same)]);
    assert_eq!(pressing(&taken, &[8], 1), [Role::Taken(Verdict::Different)]);
    assert_eq!(pressing(&taken, &[8], 0), []);
    // Its body is the numeral 7, whose entry has 17 words.
    let longer = [12, 387, 5, 62];
    assert_eq!(pressing(&longer, &[0], 1), [Role::Taken(Verdict::Budget)]);
    assert_eq!(pressing(&longer, &[0], 2), [Role::Taken(Verdict::Full)]);
    // case 1() of _ -> f0, 1/0 -> f0 takes the listed branch.
    assert_eq!(pressing(&[20, 131, 5, 0, 133, 0], &[0], 1), []);
}

#[test]
fn stuck_defaults() {
    // case 1() of _ -> f0, 1/1 -> 0, and case f0 of _ -> f0.
    let (count, variable) = ([20, 131, 5, 0, 141, 0], [12, 0, 5, 0]);
    assert_eq!(pressing(&count, &[0], 1), [Role::AnotherCount]);
    assert_eq!(pressing(&[0], &variable, 1), [Role::NoConstructor]);
    let both = [Role::AnotherCount, Role::NoConstructor];
    assert_eq!(pressing(&count, &variable, 1), both);
    // Only where both sides are known to be normal.
    assert_eq!(pressing(&variable, &variable, 1), []);
    assert_eq!(pressing(&variable, &[2, 1, 0, 0], 0), []);
}

#[test]
fn words_that_tag_0_alone_makes_no_term() {
    let refused = |words: &[u32]| pressing(words, &[0], 1);
    assert_eq!(refused(&[3]), [Role::Press(Fault::Constructor)]);
    assert_eq!(refused(&[1, 19, 0, 0]), [Role::Press(Fault::Constructor)]);
    assert_eq!(refused(&[12, 0, 13, 0]), [Role::Press(Fault::Binds)]);
    assert_eq!(refused(&[20, 0, 133, 0, 5, 0]), [Role::Press(Fault::Place)]);
    assert_eq!(refused(&[20, 0, 5, 0, 5, 0]), [Role::Press(Fault::Place)]);
    // The subject is a whole case of its own.
    let inner = [20, 12, 0, 5, 0, 133, 0, 5, 0];
    assert_eq!(refused(&inner), [Role::Press(Fault::Place)]);
    // With another fault beside it, or none.
    assert_eq!(refused(&[147, 3, 7]), []);
    assert_eq!(refused(&[20, 0, 261, 0, 133, 0]), []);
    assert_eq!(refused(&[12, 0, 5]), []);
}

#[test]
fn forms_with_a_default() {
    let (form, other) = ([12, 0, 5, 0], [1, 1, 1, 1, 0]);
    let show = |left: &[u32], right: &[u32]| of(common::showing(left, right, 16));
    assert_eq!(show(&form, &other), [Role::Shown]);
    assert_eq!(show(&form, &[0]), []);
    let write = |words: &[u32], table| of(common::writing(words, table));
    assert_eq!(write(&form, 20), [Role::Written]);
    assert_eq!(write(&form, 19), []);
    assert_eq!(write(&other, 24), []);
}
