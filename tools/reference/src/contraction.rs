//! Shift, substitution, the three rules and the leftmost outermost step.

use crate::term::{abs, app, branch, case, con, num, var, Branch, Term};
use std::fmt;

/// An index moved by a signed distance.
fn moved(index: u32, distance: i64) -> u32 {
    u32::try_from(i64::from(index) + distance).expect("no index moves below 0 or beyond its width")
}

/// Rebuilds a term with `at` deciding each variable from the number of
/// binders around it inside the term and its index.
fn map_variables(term: &Term, depth: u32, at: &dyn Fn(u32, u32) -> Term) -> Term {
    match term {
        Term::Var(index) => at(depth, *index),
        Term::Abs(body) => abs(map_variables(body, depth + 1, at)),
        Term::App(function, argument) => app(
            map_variables(function, depth, at),
            map_variables(argument, depth, at),
        ),
        Term::Con { tag, args } => con(
            *tag,
            args.iter()
                .map(|arg| map_variables(arg, depth, at))
                .collect(),
        ),
        Term::Case {
            scrutinee,
            branches,
        } => case(
            map_variables(scrutinee, depth, at),
            branches
                .iter()
                .map(|b| branch(b.tag, b.bound, map_variables(&b.body, depth + b.bound, at)))
                .collect(),
        ),
        Term::Num(numeral) => num(*numeral),
    }
}

/// The term with its free indices moved by `distance`.
pub fn shift(term: &Term, distance: i64) -> Term {
    map_variables(term, 0, &|depth, index| {
        if index < depth {
            var(index)
        } else {
            var(moved(index, distance))
        }
    })
}

/// The body of removed binders with all arguments put in together: the last
/// argument is index 0, and indices past the binders fall by their number.
pub fn substitute(body: &Term, args: &[Term]) -> Term {
    let count = args.len();
    map_variables(body, 0, &|depth, index| {
        if index < depth {
            return var(index);
        }
        match (index - depth) as usize {
            bound if bound < count => shift(&args[count - 1 - bound], i64::from(depth)),
            _ => var(moved(index, -(count as i64))),
        }
    })
}

/// The Church numeral of `n`: a function put `n` times before its argument.
pub fn church(n: u32) -> Term {
    abs(abs((0..n).fold(var(0), |term, _| app(var(1), term))))
}

/// A rule of contraction; the case rule is two by what it takes, a branch of
/// the tag or the default.
#[derive(Clone, Copy, Debug, PartialEq, Eq)]
pub enum Rule {
    Beta,
    Case,
    Default,
    Numeral,
}

impl fmt::Display for Rule {
    fn fmt(&self, f: &mut fmt::Formatter<'_>) -> fmt::Result {
        f.pad(match self {
            Rule::Beta => "beta",
            Rule::Case => "case",
            Rule::Default => "default",
            Rule::Numeral => "numeral",
        })
    }
}

/// What the term becomes if it is itself a redex.
pub fn contractum(term: &Term) -> Option<Term> {
    contraction(term).map(|(_, next)| next)
}

/// The rule by which the term is itself a redex, and what it becomes.
fn contraction(term: &Term) -> Option<(Rule, Term)> {
    match term {
        Term::App(function, argument) => match function.as_ref() {
            Term::Abs(body) => Some((Rule::Beta, substitute(body, std::slice::from_ref(argument)))),
            _ => None,
        },
        Term::Case {
            scrutinee,
            branches,
        } => match scrutinee.as_ref() {
            Term::Con { tag, args } => taken(branches, *tag, args),
            _ => None,
        },
        Term::Num(numeral) => Some((Rule::Numeral, church(*numeral))),
        _ => None,
    }
}

/// What a case of a constructor becomes. A branch of the tag decides alone,
/// taken or not; where there is none, a default's body stays as it is.
fn taken(branches: &[Branch], tag: u32, args: &[Term]) -> Option<(Rule, Term)> {
    let mut listed = branches.iter().filter(|branch| !branch.is_default());
    match listed.find(|branch| branch.tag == tag) {
        Some(branch) => {
            let fits = branch.bound as usize == args.len();
            fits.then(|| (Rule::Case, substitute(&branch.body, args)))
        }
        None => {
            let default = branches.iter().find(|branch| branch.is_default());
            default.map(|branch| (Rule::Default, branch.body.clone()))
        }
    }
}

/// A redex: the position of its first word, counted from 0, and its rule.
#[derive(Clone, Copy, Debug, PartialEq, Eq)]
pub struct Redex {
    pub position: usize,
    pub rule: Rule,
}

/// The leftmost outermost redex; none if the term is normal.
pub fn redex(term: &Term) -> Option<Redex> {
    let mut position = 0;
    let rule = first_rule(term, &mut position)?;
    Some(Redex { position, rule })
}

/// Passes the words before the leftmost outermost redex, or all if there is
/// none.
fn first_rule(term: &Term, passed: &mut usize) -> Option<Rule> {
    if let Some((rule, _)) = contraction(term) {
        return Some(rule);
    }
    *passed += 1;
    match term {
        Term::Var(_) | Term::Num(_) => None,
        Term::Abs(body) => first_rule(body, passed),
        Term::App(function, argument) => {
            first_rule(function, passed).or_else(|| first_rule(argument, passed))
        }
        Term::Con { args, .. } => args.iter().find_map(|arg| first_rule(arg, passed)),
        Term::Case {
            scrutinee,
            branches,
        } => first_rule(scrutinee, passed).or_else(|| {
            branches.iter().find_map(|branch| {
                *passed += 1;
                first_rule(&branch.body, passed)
            })
        }),
    }
}

/// The term after its leftmost outermost contraction; none if it is normal.
/// A term's own first word comes before those of its parts, and its parts
/// follow in the order of their words.
pub fn step(term: &Term) -> Option<Term> {
    contractum(term).or_else(|| step_inside(term))
}

fn step_inside(term: &Term) -> Option<Term> {
    match term {
        Term::Var(_) | Term::Num(_) => None,
        Term::Abs(body) => step(body).map(abs),
        Term::App(function, argument) => match step(function) {
            Some(next) => Some(app(next, argument.as_ref().clone())),
            None => step(argument).map(|next| app(function.as_ref().clone(), next)),
        },
        Term::Con { tag, args } => step_first(args, step).map(|args| con(*tag, args)),
        Term::Case {
            scrutinee,
            branches,
        } => match step(scrutinee) {
            Some(next) => Some(case(next, branches.clone())),
            None => step_first(branches, step_branch)
                .map(|branches| case(scrutinee.as_ref().clone(), branches)),
        },
    }
}

fn step_branch(of: &Branch) -> Option<Branch> {
    step(&of.body).map(|body| branch(of.tag, of.bound, body))
}

/// The items with the first one that can make a step after it.
fn step_first<T: Clone>(items: &[T], step: impl Fn(&T) -> Option<T>) -> Option<Vec<T>> {
    let mut tries = items.iter().enumerate();
    let (place, next) = tries.find_map(|(place, item)| Some((place, step(item)?)))?;
    let mut out = items[..place].to_vec();
    out.push(next);
    out.extend_from_slice(&items[place + 1..]);
    Some(out)
}
