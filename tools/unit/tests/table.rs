//! Stored tables, against tables worked out by hand from the rules.

use unit::program::input;
use unit::{table, table_text, Term};

fn term(text: &str) -> Term {
    text.parse().expect("a term")
}

fn records(text: &str) -> String {
    table_text(&table(&term(text)))
}

#[test]
fn identity_is_stored_as_the_rules_say() {
    assert_eq!(records(r"\0"), "1,2,1,0, 1,0,2,0, 0,0,0,0");
}

#[test]
fn siblings_are_chained() {
    assert_eq!(records("7"), "1,1,1,0, 0,7,0,0");
    assert_eq!(records("7 8"), "1,3,1,0, 2,0,2,0, 0,7,0,3, 0,8,0,0");
    // Records: application 1, application 2, abstractions 3 and 4, variables 5, 6 and 7.
    assert_eq!(
        records(r"(\\1) 0 1"),
        "1,7,1,0, 2,0,2,0, 2,0,3,7, 1,0,4,6, 1,0,5,0, 0,1,0,0, 0,0,0,0, 0,1,0,0"
    );
    assert_eq!(
        records("#2[5,#1,6]"),
        "1,4,1,0, 3,2,2,0, 0,5,0,3, 3,1,0,4, 0,6,0,0"
    );
}

#[test]
fn a_case_chains_its_subject_and_its_branches() {
    // Records: case 1, constructor 2, variable 3, branch 4, variable 5, branch 6, variable 7.
    assert_eq!(
        records("?#2[5]{1.0:0,2.1:0}"),
        "1,7,1,0, 4,0,2,0, 3,2,3,4, 0,5,0,0, 5,16,5,6, 0,0,0,0, 5,33,7,0, 0,0,0,0"
    );
    assert_eq!(records("?0{}"), "1,2,1,0, 4,0,2,0, 0,0,0,0");
}

#[test]
fn a_numeral_has_its_value_and_no_children() {
    assert_eq!(records("%31"), "1,1,1,0, 6,31,0,0");
    // Records: application 1, numerals 2 and 3.
    assert_eq!(records("%8 %2"), "1,3,1,0, 2,0,2,0, 6,8,0,3, 6,2,0,0");
}

#[test]
fn a_default_is_a_branch_of_value_0() {
    // Records: case 1, its subject 2, branch 3, variable 4, branch 5, variable 6.
    assert_eq!(
        records("?2{_:0,1.2:1}"),
        "1,6,1,0, 4,0,2,0, 0,2,0,3, 5,0,4,5, 0,0,0,0, 5,18,6,0, 0,1,0,0"
    );
    assert_eq!(records("?2{0.0:0}"), records("?2{_:0}"));
}

#[test]
fn a_case_ends_before_its_right_sibling() {
    // Records: application 1, case 2, its subject 3, the argument 4.
    assert_eq!(
        records("?0{} 1"),
        "1,4,1,0, 2,0,2,0, 4,0,3,4, 0,0,0,0, 0,1,0,0"
    );
    // Records: constructor 1, case 2, its subject 3, branch 4, its body 5, the argument 6.
    assert_eq!(
        records("#1[?0{2.0:7},8]"),
        "1,6,1,0, 3,1,2,0, 4,0,3,6, 0,0,0,4, 5,32,5,0, 0,7,0,0, 0,8,0,0"
    );
}

#[test]
fn what_the_unit_refuses_is_stored_all_the_same() {
    assert_eq!(records("#0"), "1,1,1,0, 3,0,0,0");
    assert_eq!(records("#4294967295"), "1,1,1,0, 3,4294967295,0,0");
    assert_eq!(
        records("?0{2.0:0,1.9:0}"),
        "1,6,1,0, 4,0,2,0, 0,0,0,3, 5,32,4,5, 0,0,0,0, 5,25,6,0, 0,0,0,0"
    );
    assert_eq!(
        records("?0{2.0:0,_:0}"),
        "1,6,1,0, 4,0,2,0, 0,0,0,3, 5,32,4,5, 0,0,0,0, 5,0,6,0, 0,0,0,0"
    );
    let many = table(&term(&format!("#1[{}0]", "0,".repeat(16))));
    assert_eq!(many[..8], [1, 18, 1, 0, 3, 1, 2, 0]);
    assert_eq!(many[8..12], [0, 0, 0, 3]);
    assert_eq!(many[18 * 4..], [0, 0, 0, 0]);
}

#[test]
fn input_is_the_rules_example() {
    let words = [
        10, 16, 32, 1, 7, 1, 0, 2, 0, 2, 0, 2, 0, 3, 7, 1, 0, 4, 6, 1, 0, 5, 0, 0, 1, 0, 0, 0, 0,
        0, 0, 0, 1, 0, 0, 8, 1, 1, 1, 0, 0, 0, 0, 0,
    ];
    let bytes: Vec<u8> = words.into_iter().flat_map(u32::to_le_bytes).collect();
    assert_eq!(input(10, 16, &term(r"(\\1) 0 1"), &term("0")), bytes);
}
