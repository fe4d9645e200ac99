//! The three rules and the order of contraction, each expectation worked out
//! from the rules as its comment says.

mod common;

use common::census::Census;
use common::{next, numbers, rows, term};
use reference::contraction::{contractum, redex, step, Redex, Rule};
use reference::generate::pairs::pair;
use reference::generate::terms::subterms;
use reference::on_large_stack;
use reference::random::Random;
use reference::term::{branch, case, con, default, var, Term, MOST_ARGUMENTS};
use reference::words::{kind, kind_of, words};
use std::iter::successors;

/// Terms as their words, what each becomes, up to the normal one. Constructor t with n
/// arguments is the word (16 t + n) 8 + 3, a case of n branches 8 n + 4, its branch for
/// tag t that binds n (16 t + n) 8 + 5, its default 5, and numeral n 8 n + 6.
const CHAINS: &str = r"
    # The bench pairs of the rules.
    2,1,0,24 > 24
    2,2,1,1,8,0,8 > 2,1,8,8 > 0
    1,2,1,1,8,0 > 1,1,8
    20,267,40,133,0,269,0 > 40
    12,147,0,8,149,0 > 8
    12,139,0,133,0
    # (\ \ 1) f0: f0 stands under one binder afterwards, so its index is 1.
    2,1,1,8,0 > 1,8
    # (\ case 0 of 1/2 -> 2) f3: in the branch f3 stands under two binders.
    2,1,12,0,149,16,24 > 12,24,149,40
    # (\ \ 1) (\ 0 f3): f3 is index 4 inside, and 5 under one more binder.
    2,1,1,8,1,2,0,32 > 1,1,2,0,40
    # (\ 2) f9: index 2 under one binder is f1.
    2,1,16,72 > 8
    # (\ \ 0 1 3) f9: 0 stays, 1 becomes f9 under one binder, and 3 is f1.
    2,1,1,2,2,0,8,24,72 > 1,2,2,0,80,16
    # case 1(f7, f8) of 1/2 -> 2(0, 1, 2): 0 is the last argument, 1 the first, 2 is f0.
    12,147,56,64,149,283,0,8,16 > 283,64,56,0
    # case 1(f0, f1) of 1/2 -> 1: f0 looks like a bound index, and is not replaced again.
    12,147,0,8,149,8 > 0
    # Stuck by another count of arguments, by the tag, without a branch, by the subject.
    12,131,141,0
    12,139,0,133,0
    20,259,133,0,389,0
    4,131
    12,0,133,0
    12,1,0,133,0
    # Applications of something other than an abstraction.
    2,131,0
    2,0,1,0
    # case 3() of _ -> f7, alone and beside 1/0 -> f1, 4/2 -> f2.
    12,387,5,56 > 56
    28,387,5,56,133,8,533,32 > 56
    # case 3(f8, f9) of _ -> 0 1 2, and \ case 3(0) of _ -> 0 1: the body stays.
    12,403,64,72,5,2,2,0,8,16 > 2,2,0,8,16
    1,12,395,0,5,2,0,8 > 1,2,0,8
    # case 3(Loop, 31) of _ -> f0: both arguments are thrown away.
    12,403,2,1,2,0,0,1,2,0,0,254,5,0 > 0
    # case 1(..) of _ -> f7, 1/1 -> 0 1: with its count the listed branch is taken, with
    # another the case is stuck.
    20,139,40,5,56,141,2,0,8 > 2,40,0
    20,131,5,56,141,2,0,8
    20,147,40,48,5,56,141,2,0,8
    # A listed branch that binds nothing is no default.
    20,131,5,56,133,64 > 64
    20,139,0,5,56,133,64
    # case S of _ -> f7, where S is f0, \ 0, f0 f1, 3() f0, case f0 of nothing, case f0 of
    # _ -> f7.
    12,0,5,56
    12,1,0,5,56
    12,2,0,8,5,56
    12,2,387,0,5,56
    12,4,0,5,56
    12,12,0,5,56,5,56
    # There (\ 0) 3(), a case that takes its default, and numeral 0.
    12,2,1,0,387,5,56 > 12,387,5,56 > 56
    12,12,387,5,56,5,56 > 12,56,5,56
    12,6,5,56 > 12,1,1,0,5,56
    # case (\ 0) f0 of _ -> (\ 0) f0, 1/2 -> 0: subject, default's body, other body.
    20,2,1,0,0,5,2,1,0,0,149,6 > 20,0,5,2,1,0,0,149,6 > 20,0,5,0,149,6 > 20,0,5,0,149,1,1,0
    # Stuck by the count: case 1() of _ -> 1, 1/2 -> f0, with numeral 1.
    20,131,5,14,149,16 > 20,131,5,1,1,2,8,0,149,16
    # case 3((\ 0) f0) of _ -> (\ 0) f0: a default is taken with its redexes.
    12,395,2,1,0,0,5,2,1,0,0 > 2,1,0,0 > 0
    # (\ case 0 of _ -> 0 1) f3: no binder is crossed.
    2,1,12,0,5,2,0,8,24 > 12,24,5,2,24,0
    # (\ f0) ((\ 0) f1): the outer redex throws the inner one away.
    2,1,8,2,1,0,8 > 0
    # case 1((\ 0) f1) of 1/1 -> 2(0, 0): the argument is copied as it is.
    12,139,2,1,0,8,141,275,0,0 > 275,2,1,0,8,2,1,0,8 > 275,8,2,1,0,8 > 275,8,8
    # ((\ 0) f0) ((\ 0) f1): function before argument.
    2,2,1,0,0,2,1,0,8 > 2,0,2,1,0,8 > 2,0,8
    # 1(f0, (\ 0) f0, (\ 0) f0), and a case with a redex in each part.
    155,0,2,1,0,0,2,1,0,0 > 155,0,0,2,1,0,0 > 155,0,0,0
    20,2,1,0,0,133,2,1,0,0,285,2,1,0,0 > 20,0,133,2,1,0,0,285,2,1,0,0 > 20,0,133,0,285,2,1,0,0 > 20,0,133,0,285,0
    # case (\ 0) 1() of 1/0 -> f0: the case waits for its subject.
    12,2,1,0,131,133,0 > 12,131,133,0 > 0
    # Numeral 0 under an abstraction, as an argument, a subject and a branch's body.
    1,6 > 1,1,1,0
    2,0,6 > 2,0,1,1,0
    139,6 > 139,1,1,0
    4,6 > 4,1,1,0
    12,0,133,6 > 12,0,133,1,1,0
    # 1 f0 and 0 1: the numeral is the redex, then the application.
    2,14,0 > 2,1,1,2,8,0,0 > 1,2,8,0
    2,6,14 > 2,1,1,0,14 > 1,0
    # case 0 of 1/0 -> (\ 0) f0: first the numeral, then the branch of the stuck case.
    12,6,133,2,1,0,0 > 12,1,1,0,133,2,1,0,0 > 12,1,1,0,133,0
    # 1(0, (\ 0) f0) and 1((\ 0) f0, 0), with numeral 0.
    147,6,2,1,0,0 > 147,1,1,0,2,1,0,0 > 147,1,1,0,0
    147,2,1,0,0,6 > 147,0,6 > 147,0,1,1,0
    # (\ 1(0, 0)) 0 and case 2(0) of 2/1 -> 1(0, 0): the numeral is copied as it is.
    2,1,147,0,0,6 > 147,6,6 > 147,1,1,0,6 > 147,1,1,0,1,1,0
    12,267,6,269,147,0,0 > 147,6,6 > 147,1,1,0,6 > 147,1,1,0,1,1,0
    # (\ 0) f9 with numeral 0 as body, and (\ \ 1) 0: numerals do not move.
    2,1,6,72 > 6 > 1,1,0
    2,1,1,8,6 > 1,6 > 1,1,1,0
    # Gregoire and Leroy, section 2.2: (\x.x)(\y.(\z.z) y (\t.t)).
    2,1,0,1,2,2,1,0,0,1,0 > 1,2,2,1,0,0,1,0 > 1,2,0,1,0
";

#[test]
fn terms_become_their_normal_forms() {
    for row in rows(CHAINS) {
        let chain: Vec<Vec<u32>> = row.split('>').map(numbers).collect();
        let after = chain[1..].iter().cloned().map(Some).chain([None]);
        for (before, after) in chain.iter().zip(after) {
            assert_eq!(next(before), after, "{before:?}");
        }
    }
}

#[test]
fn the_most_arguments_in_order() {
    // Argument i is f(100 + i); the last one is index 0, and the index past all is f0.
    let most = MOST_ARGUMENTS as u32;
    let args: Vec<_> = (0..most).map(|i| var(100 + i)).collect();
    for (index, free) in [(0, 99 + most), (1, 98 + most), (most - 1, 100), (most, 0)] {
        let redex = case(con(255, args.clone()), vec![branch(255, most, var(index))]);
        assert_eq!(step(&redex), Some(var(free)));
    }
}

#[test]
fn a_default_is_for_all_tags_that_are_not_listed() {
    // Below, between and above those, the last one included.
    let others = |tag| branch(tag, 0, var(1));
    let arms = vec![default(var(7)), others(3), others(200)];
    for tag in [1, 2, 4, 199, 201, 255] {
        assert_eq!(step(&case(con(tag, vec![]), arms.clone())), Some(var(7)));
    }
}

#[test]
fn a_numeral_contracts_to_its_church_numeral() {
    // 1,1, then n times 2,8, then 0: 1,088 words in all, and each is normal.
    let mut words = 0;
    for n in 0..=31 {
        let entry = [&[1, 1][..], &[2, 8].repeat(n as usize), &[0]].concat();
        words += entry.len();
        assert_eq!(next(&entry), None);
        assert_eq!(next(&[8 * n + 6]), Some(entry));
    }
    assert_eq!(words, 1_088);
}

// Where the leftmost outermost redex stands, and its rule.

/// Position and rule of the redex in a term of these words.
fn found(of: &[u32]) -> Option<(usize, Rule)> {
    redex(&term(of)).map(|Redex { position, rule }| (position, rule))
}

#[test]
fn each_rule_is_named_at_its_first_word() {
    // (\ 0) f0 as a whole, under a binder and as an argument of f0.
    assert_eq!(found(&[2, 1, 0, 0]), Some((0, Rule::Beta)));
    assert_eq!(found(&[1, 2, 1, 0, 0]), Some((1, Rule::Beta)));
    assert_eq!(found(&[2, 0, 2, 1, 0, 0]), Some((2, Rule::Beta)));
    // The bench pair: the outer application is none, its function is one.
    assert_eq!(found(&[2, 2, 1, 1, 8, 0, 8]), Some((1, Rule::Beta)));
    // case 2(f5) of 1/0 -> f0, 2/1 -> 0.
    assert_eq!(found(&[20, 267, 40, 133, 0, 269, 0]), Some((0, Rule::Case)));
    // case 3() of _ -> f7, alone and as the second argument of 1(f0, ..).
    assert_eq!(found(&[12, 387, 5, 56]), Some((0, Rule::Default)));
    assert_eq!(found(&[147, 0, 12, 387, 5, 56]), Some((2, Rule::Default)));
    // case 1() of _ -> f7, 1/0 -> f8 takes the branch of the tag.
    assert_eq!(found(&[20, 131, 5, 56, 133, 64]), Some((0, Rule::Case)));
    // Numeral 3 alone, applied, and as a subject.
    assert_eq!(found(&[30]), Some((0, Rule::Numeral)));
    assert_eq!(found(&[2, 22, 30]), Some((1, Rule::Numeral)));
    assert_eq!(found(&[12, 6, 5, 56]), Some((1, Rule::Numeral)));
}

#[test]
fn words_of_branches_count_in_a_position() {
    // case f0 of 1/0 -> f1, 2/1 -> (\ 0) 0: words 0 to 4 are the case, f0, the
    // first branch with its body, and the second branch.
    assert_eq!(
        found(&[20, 0, 133, 8, 269, 2, 1, 0, 0]),
        Some((5, Rule::Beta))
    );
    // A stuck case, case 1(f0) of 1/0 -> case 2() of _ -> f0.
    assert_eq!(
        found(&[12, 139, 0, 133, 12, 259, 5, 0]),
        Some((4, Rule::Default))
    );
}

#[test]
fn a_normal_term_has_no_redex() {
    for normal in [&[0][..], &[1, 2, 8, 0], &[12, 139, 0, 133, 0], &[2, 131, 0]] {
        assert_eq!(found(normal), None);
    }
}

/// The parts of a term that are redexes, each with its first word's position,
/// told by the words alone which of them begin a part.
fn redexes(of: &Term) -> Vec<(usize, &Term)> {
    let list = words(of);
    let starts = (0..list.len()).filter(|at| kind_of(list[*at]) != kind::BRANCH);
    let parts = subterms(of).into_iter().map(|(part, _)| part);
    let all = starts.zip(parts);
    all.filter(|(_, part)| contractum(part).is_some()).collect()
}

/// The rule of a part that is a redex.
fn rule_of(part: &Term) -> Rule {
    match part {
        Term::App(..) => Rule::Beta,
        Term::Num(_) => Rule::Numeral,
        Term::Case {
            scrutinee,
            branches,
        } => match scrutinee.as_ref() {
            Term::Con { tag, .. } if branches.iter().all(|branch| branch.tag != *tag) => {
                Rule::Default
            }
            _ => Rule::Case,
        },
        _ => panic!("no redex: {part:?}"),
    }
}

#[test]
fn a_step_contracts_the_redex_that_is_found() {
    on_large_stack(|| {
        let mut census = Census::default();
        for case in 0..2_000 {
            let (left, right) = pair(&mut Random::new(13, case));
            for first in [left, right] {
                for term in successors(Some(first), step).take(4) {
                    let Some(&(position, part)) = redexes(&term).first() else {
                        assert_eq!((redex(&term), step(&term)), (None, None));
                        census.meet("normal");
                        continue;
                    };
                    let rule = rule_of(part);
                    assert_eq!(redex(&term), Some(Redex { position, rule }));
                    let contracted = contractum(part).expect("the part is a redex");
                    let mut list = words(&term);
                    list.splice(position..position + part.size(), words(&contracted));
                    assert_eq!(step(&term).map(|next| words(&next)), Some(list));
                    census.meet(rule.to_string());
                }
            }
        }
        census.assert_reaches("redexes", 100, &["{normal|beta|case|default|numeral}"]);
    });
}
