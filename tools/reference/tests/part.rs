//! The parts of numerals in answers, on calls made by hand.

mod common;

use common::table;
use reference::input::bytes;
use reference::part::{of_call, of_input, Part};
use reference::replay::{Machine, Operation};

const VARIABLE: [u32; 4] = [0, 0, 0, 0];

fn of((before, operation): (Machine, Operation)) -> Vec<Part> {
    of_call(&before, &operation)
}

fn loading(records: &[[u32; 4]]) -> Vec<Part> {
    of(common::loading(records))
}

fn pressing(left: &[u32], right: &[u32], budget: u32) -> Vec<Part> {
    of(common::pressing(left, right, 16, budget))
}

fn showing(left: &[u32], right: &[u32]) -> Vec<Part> {
    of(common::showing(left, right, 16))
}

fn writing(left: &[u32], table: usize) -> Vec<Part> {
    of(common::writing(left, table))
}

#[test]
fn loading_a_numeral() {
    assert_eq!(loading(&[[6, 31, 0, 0]]), [Part::Loaded]);
    assert_eq!(loading(&[VARIABLE]), []);
    assert_eq!(loading(&[[6, 32, 0, 0]]), [Part::Value]);
    assert_eq!(loading(&[[6, 31, 2, 0], VARIABLE]), [Part::Children]);
    // With children as well, the value is what counts.
    assert_eq!(loading(&[[6, 32, 2, 0], VARIABLE]), [Part::Value]);
}

#[test]
fn tables_with_another_fault() {
    let beside = |numeral: [u32; 4], last| loading(&[[2, 0, 2, 0], numeral, last]);
    assert_eq!(beside([6, 32, 0, 3], [0, 0, 0, 0]), [Part::Value]);
    assert_eq!(beside([6, 32, 0, 3], [7, 0, 0, 0]), []);
    assert_eq!(beside([6, 32, 0, 3], [3, 0, 0, 0]), []);
    assert_eq!(beside([6, 31, 0, 3], [3, 0, 0, 0]), []);
    // The application has one child, and the numeral has one.
    assert_eq!(beside([6, 31, 3, 0], [0, 0, 0, 0]), []);
    // The numeral names itself.
    assert_eq!(loading(&[[6, 31, 1, 0]]), []);
}

#[test]
fn pressing_a_numeral() {
    let two = [1, 1, 2, 8, 2, 8, 0];
    assert_eq!(pressing(&[22], &two, 1), [Part::Contracted]);
    assert_eq!(pressing(&two, &[22], 1), [Part::Contracted]);
    assert_eq!(pressing(&[22], &two, 0), []);
    assert_eq!(pressing(&[254], &[254], 1), []);
    // Numeral 7 would have 17 words.
    assert_eq!(pressing(&[62], &[0], 1), [Part::Full]);
    assert_eq!(pressing(&[62], &[0], 0), []);
    // 1(0, 31): the first one fits.
    let both = [Part::Contracted, Part::Full];
    assert_eq!(pressing(&[147, 6, 254], &[0], 2), both);
    // (\ f0) 31 throws the numeral away.
    assert_eq!(pressing(&[2, 1, 8, 254], &[0], 9), []);
}

#[test]
fn full_by_something_else() {
    // W W becomes 20 words; beside it a numeral that fits, and one that does
    // not.
    let w_w = [2, 1, 2, 2, 0, 0, 0, 1, 2, 2, 0, 0, 0];
    assert_eq!(pressing(&w_w, &[6], 2), []);
    assert_eq!(pressing(&[254], &w_w, 2), []);
    assert_eq!(pressing(&[254], &[246], 2), [Part::Full]);
}

#[test]
fn words_that_numerals_alone_make_no_term() {
    assert_eq!(pressing(&[262], &[0], 9), [Part::PressPayload]);
    assert_eq!(pressing(&[1, 0], &[2, 262, 262], 9), [Part::PressPayload]);
    assert_eq!(pressing(&[262], &[0], 1_000_001), []);
    assert_eq!(pressing(&[262, 0], &[0], 9), []);
    assert_eq!(pressing(&[262], &[1], 9), []);
    assert_eq!(showing(&[262], &[0]), [Part::ShowPayload]);
    assert_eq!(showing(&[262], &[7]), []);
    assert_eq!(writing(&[262], 8), [Part::WritePayload]);
    assert_eq!(writing(&[262], 0), [Part::WritePayload]);
    assert_eq!(writing(&[1, 262, 0], 16), []);
}

#[test]
fn forms_with_a_numeral() {
    assert_eq!(showing(&[6], &[1, 0]), [Part::Shown]);
    assert_eq!(showing(&[1, 0], &[6]), [Part::Shown]);
    assert_eq!(showing(&[0], &[6]), [Part::Shown]);
    assert_eq!(showing(&[6], &[0]), []);
    assert_eq!(writing(&[6], 8), [Part::Written]);
    assert_eq!(writing(&[6], 7), []);
    assert_eq!(writing(&[0], 8), []);
}

#[test]
fn inputs_of_the_verdict_program() {
    let input = |budget, left: &[[u32; 4]], right: &[[u32; 4]]| {
        let (left, right) = (table(left), table(right));
        let counts = (left.len() as u32, right.len() as u32);
        of_input(&bytes(
            &[&[budget, 16, counts.0], &left[..], &[counts.1], &right].concat(),
        ))
    };
    let numeral = |value| [[6, value, 0, 0]];
    let one = [Part::Loaded, Part::Contracted];
    assert_eq!(input(1, &numeral(0), &[VARIABLE]), one);
    assert_eq!(input(1, &[VARIABLE], &numeral(0)), one);
    let both = [Part::Loaded, Part::Loaded, Part::Full];
    assert_eq!(input(2, &numeral(31), &numeral(30)), both);
    assert_eq!(input(2, &numeral(32), &numeral(30)), [Part::Value]);
    assert_eq!(input(2, &[[7, 0, 0, 0]], &numeral(32)), []);
    let right = [Part::Loaded, Part::Value];
    assert_eq!(input(2, &numeral(30), &numeral(32)), right);
    assert_eq!(of_input(&[1, 2, 3]), []);
}
