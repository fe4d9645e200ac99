//! Which words are one whole term; a word is payload x 8 + kind.

mod common;

use common::{numbers, rows};
use reference::term::{abs, app, branch, case, con, default, num, var, Term};
use reference::term::{MOST_ARGUMENTS, MOST_BOUND, MOST_BRANCHES};
use reference::words::{read, words};

fn assert_term(list: &[u32], term: Term) {
    assert_eq!(words(&term), list);
    assert_eq!(read(list), Some(term));
}

#[test]
fn one_of_each_kind() {
    assert_term(&[24], var(3));
    assert_term(&[1, 0], abs(var(0)));
    assert_term(&[2, 8, 0], app(var(1), var(0)));
    // Tag 2 with one argument: (2 x 16 + 1) x 8 + 3.
    assert_term(&[267, 0], con(2, vec![var(0)]));
    assert_term(&[4, 0], case(var(0), vec![]));
    // Two branches: 2 x 8 + 4; tag 1 binding 2: (16 + 2) x 8 + 5.
    let arms = vec![branch(1, 2, var(1)), branch(3, 0, var(0))];
    assert_term(&[20, 0, 149, 8, 3 * 16 * 8 + 5, 0], case(var(0), arms));
    let arms = vec![default(num(2)), branch(1, 2, var(1))];
    assert_term(&[20, 131, 5, 22, 149, 8], case(con(1, vec![]), arms));
    for numeral in 0..=31 {
        assert_term(&[8 * numeral + 6], num(numeral));
    }
}

/// Words, and whether they are one whole term. Constructor 1 without arguments is 131,
/// the branch for tag 1 that binds nothing 133, that for tag 2 261, a default 5.
const LISTS: &str = "
    # Words that are missing or too many.
    no: -
    no: 20
    no: 20,0
    no: 20,0,133
    no: 20,0,133,0
    no: 20,0,133,0,269
    yes: 20,0,133,0,269,0
    no: 20,0,133,0,269,0,0
    no: 0,0
    # Kinds that there are not.
    no: 7
    no: 15
    no: 1,7
    no: 4294967295
    # Numerals above 31, and words behind one; as a subject, an argument and a body, and not
    # in a branch's place.
    no: 262
    no: 270
    no: 518
    no: 2054
    no: 1,262
    no: 4294967294
    no: 6,0
    no: 14,0
    yes: 2,14,254
    yes: 4,6
    yes: 147,14,6
    yes: 12,0,133,22
    no: 12,0,134,0
    no: 12,0,6
    # Payloads of abstraction and application.
    no: 9,0
    no: 10,0,0
    # Tags of constructors: 1, 255, 256, and 0 with any number of arguments.
    yes: 131
    yes: 32643
    no: 32771
    no: 3
    no: 11,0
    no: 123,0,0,0,0,0,0,0,0,0,0,0,0,0,0,0
    # Branches stand only in a case, and in a case nothing else stands in their place.
    no: 133,0
    no: 1,133,0
    no: 12,133,0,133,0
    no: 12,0,1,0
    yes: 12,0,133,0
    # Tags of branches rise strictly, whatever is bound: 0, 1, 2, 254, 255, 256.
    yes: 20,0,5,0,133,0
    yes: 20,0,5,0,32645,0
    yes: 20,0,133,0,261,0
    yes: 20,0,32517,0,32645,0
    no: 20,0,261,0,261,0
    no: 20,0,389,0,261,0
    no: 20,0,133,0,141,0
    no: 20,0,32645,0,32773,0
    # A default stands first, once, in a case and with a body.
    yes: 12,0,5,8
    no: 20,0,5,0,5,0
    no: 20,0,133,0,5,0
    no: 20,0,32645,0,5,0
    no: 28,0,133,0,5,0,261,0
    no: 28,0,133,0,261,0,5,0
    no: 28,0,5,0,5,0,133,0
    no: 28,0,5,0,133,0,5,0
    yes: 28,0,5,0,133,0,261,0
    yes: 12,12,0,5,0,5,12,0,5,0
    no: 5,0
    no: 1,5,0
    no: 12,5,0,5,0
    no: 12,0,5
    # Tag 0 with 1 and 15 bound is none, alone, first, later or behind a default.
    no: 12,0,13,0
    no: 12,0,125,0
    no: 20,0,13,0,133,0
    no: 20,0,133,0,13,0
    no: 20,0,5,0,125,0
    # Free number 255 and 256: under no binder, an abstraction, a branch that binds 9, its
    # scrutinee, a default; the second part of an application is under no binder of the first.
    yes: 2040
    no: 2048
    yes: 1,2048
    no: 1,2056
    yes: 12,0,205,2112
    no: 12,0,205,2120
    no: 12,2048,205,0
    yes: 12,0,5,2040
    no: 12,0,5,2048
    yes: 1,12,0,5,2048
    no: 2,1,0,2048
    no: 4294967288
";

#[test]
fn words_that_are_one_whole_term() {
    for row in rows(LISTS) {
        let (expected, list) = row.split_once(':').expect("whether they are");
        let found = read(&numbers(list)).map_or("no", |_| "yes");
        assert_eq!(found, expected, "{row}");
    }
}

#[test]
fn the_most_arguments_bound_variables_and_branches() {
    let most = MOST_ARGUMENTS;
    let list = [&[(16 + most as u32) * 8 + 3][..], &vec![0; most]].concat();
    assert_term(&list, con(1, vec![var(0); most]));
    assert_eq!(read(&list[..most]), None);
    let most = MOST_BOUND as u32;
    let arms = vec![branch(255, most, var(most))];
    assert_term(
        &[12, 0, (16 * 255 + most) * 8 + 5, 8 * most],
        case(var(0), arms),
    );
    assert_eq!(read(&[12, 0, (16 * 255 + most + 1) * 8 + 5, 0]), None);
    // From tag 0, a default's, and from tag 1.
    let most = MOST_BRANCHES as u32;
    for first in [0, 1] {
        for (count, is_term) in [(most, true), (most + 1, false)] {
            let arms = (first..first + count).flat_map(|tag| [tag * 16 * 8 + 5, 0]);
            let list: Vec<u32> = [count * 8 + 4, 0].into_iter().chain(arms).collect();
            assert_eq!(read(&list).is_some(), is_term, "{list:?}");
        }
    }
}
