//! Pairs whose normal forms share their first words: one term on both sides,
//! changed at a few places of one side, with redexes put in on both.

use crate::contraction::contractum;
use crate::generate::families::identities;
use crate::generate::pairs::{expanded, named};
use crate::generate::terms::{replace, subterms, term, variable, Style};
use crate::random::Random;
use crate::term::{
    abs, app, branch, case, con, default, var, Branch, Term, MOST_ARGUMENTS, MOST_BOUND,
    MOST_BRANCHES, TAGS,
};

/// A pair of accepted terms whose normal forms most often differ, and late.
pub fn pair(random: &mut Random) -> (Term, Term) {
    let style = Style {
        redexes: 0,
        data: random.pick(&[20, 50, 80]),
        free: 20,
        numerals: random.pick(&[0, 0, 2, 10]),
        defaults: random.pick(&[0, 40, 70]),
        aim: None,
    };
    let most = random.pick(&[20, 40, 300, 400, 500, 700]);
    let size = random.between(most / 2, most);
    let whole = stuck(&term(random, size, 0, style));
    let (left, right) = match random.below(4) {
        0 => arguments(random, &whole, style),
        _ => (whole.clone(), changed_often(random, whole, style)),
    };
    let mut behind_redexes = |side| {
        let count = random.below(4);
        let side = (0..count).fold(side, |side, _| expanded(random, &side, style));
        match random.below(40) {
            0 => identities(random.between(51, 80), side),
            _ => side,
        }
    };
    let (left, right) = (behind_redexes(left), behind_redexes(right));
    match random.percent(50) {
        true => (left, right),
        false => (right, left),
    }
}

/// One function, applied to a part of the term and to a changed part.
fn arguments(random: &mut Random, whole: &Term, style: Style) -> (Term, Term) {
    let (function, part) = named(random, whole);
    let other = changed_often(random, part.clone(), style);
    (app(function.clone(), part), app(function, other))
}

fn changed_often(random: &mut Random, whole: Term, style: Style) -> Term {
    let changes = random.pick(&[1, 1, 2, 3]);
    (0..changes).fold(whole, |term, _| changed(random, &term, style))
}

/// The term with its redexes made stuck; numerals stay.
fn stuck(term: &Term) -> Term {
    let inside = match term {
        Term::Var(_) | Term::Num(_) => return term.clone(),
        Term::Abs(body) => abs(stuck(body)),
        Term::App(function, argument) => app(stuck(function), stuck(argument)),
        Term::Con { tag, args } => con(*tag, args.iter().map(stuck).collect()),
        Term::Case {
            scrutinee,
            branches,
        } => {
            let arms = branches.iter();
            let arms = arms.map(|arm| branch(arm.tag, arm.bound, stuck(&arm.body)));
            case(stuck(scrutinee), arms.collect())
        }
    };
    match (contractum(&inside).is_some(), inside) {
        (true, Term::App(function, argument)) => con(1, vec![*function, *argument]),
        (true, Term::Case { branches, .. }) => case(stuck_subject(&branches), branches),
        (_, inside) => inside,
    }
}

/// A subject with which a case of these branches is stuck: beside a default a
/// constructor of the last tag with another count, or else a variable.
fn stuck_subject(branches: &[Branch]) -> Term {
    match branches {
        [first, .., last] if first.is_default() => {
            let count = (last.bound as usize + 1) % (MOST_ARGUMENTS + 1);
            con(last.tag, vec![var(0); count])
        }
        _ => var(0),
    }
}

/// The term with one of its parts changed.
pub fn changed(random: &mut Random, whole: &Term, style: Style) -> Term {
    let parts = subterms(whole);
    let place = place(random, &parts);
    let (part, binders) = parts[place];
    let new = match part {
        Term::Var(_) if random.percent(50) => match variable(random, binders, style) {
            same if same == *part => con(1, Vec::new()),
            other => other,
        },
        Term::Con { tag, args } if random.percent(80) => other_constructor(random, *tag, args),
        Term::Case {
            scrutinee,
            branches,
        } if random.percent(80) => {
            case(scrutinee.as_ref().clone(), other_branches(random, branches))
        }
        _ => {
            let few = random.between(1, 6);
            let size = random.pick(&[part.size(), few]);
            stuck(&term(random, size, binders, style))
        }
    };
    replace(whole, place, &new)
}

/// The place of a part; the last one, cases and constructors inside are taken
/// more often.
fn place(random: &mut Random, parts: &[(&Term, u32)]) -> usize {
    let branches = |place: &usize| match parts[*place].0 {
        Term::Case { branches, .. } => !branches.is_empty(),
        _ => false,
    };
    let cases: Vec<usize> = (1..parts.len()).filter(branches).collect();
    let is_constructor = |place: &usize| matches!(parts[*place].0, Term::Con { .. });
    let constructors: Vec<usize> = (1..parts.len()).filter(is_constructor).collect();
    match random.below(13) {
        0..=3 if !cases.is_empty() => random.pick(&cases),
        4 if !constructors.is_empty() => random.pick(&constructors),
        5..=11 => parts.len() - 1,
        _ => random.below(parts.len()),
    }
}

/// A constructor with another tag, or with an argument more or less.
fn other_constructor(random: &mut Random, tag: u32, args: &[Term]) -> Term {
    let mut args = args.to_vec();
    match random.below(3) {
        0 if args.len() < MOST_ARGUMENTS => args.push(var(0)),
        1 if !args.is_empty() => args.truncate(args.len() - 1),
        _ => return con(tag % TAGS.end() + 1, args),
    }
    con(tag, args)
}

/// Branches with another last one, or with a branch more or less, which may be
/// a default.
fn other_branches(random: &mut Random, branches: &[Branch]) -> Vec<Branch> {
    let mut branches = branches.to_vec();
    let Some(last) = branches.pop() else {
        return vec![branch(1, 0, var(0))];
    };
    let Branch { tag, bound, .. } = last;
    let has_default = branches.iter().any(Branch::is_default) || last.is_default();
    match random.below(9) {
        0..=2 if tag < *TAGS.end() => branches.push(branch(tag + 1, bound, last.body)),
        3..=5 if bound < MOST_BOUND as u32 && !last.is_default() => {
            branches.push(branch(tag, bound + 1, last.body));
        }
        6 if tag < *TAGS.end() && branches.len() + 1 < MOST_BRANCHES => {
            branches.extend([last, branch(tag + 1, 0, var(0))]);
        }
        7 if !has_default && branches.len() + 1 < MOST_BRANCHES => {
            branches.insert(0, default(var(0)));
            branches.push(last);
        }
        _ => {}
    }
    branches
}
