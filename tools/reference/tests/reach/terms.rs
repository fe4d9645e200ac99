//! Terms and pairs: shapes, places of redexes, limits, ends of rounds.

use crate::common::census::Census;
use crate::Reach;
use reference::contraction::{contractum, step};
use reference::default::takes_default;
use reference::generate::families;
use reference::generate::inputs::{self, Aim};
use reference::generate::pairs::{pair, trial};
use reference::generate::terms::subterms;
use reference::part::contracts_numeral;
use reference::press::{rounds, Verdict};
use reference::random::Random;
use reference::replay::VERDICTS;
use reference::term::{num, Branch, Term, MOST_ARGUMENTS, MOST_BOUND, MOST_BRANCHES};
use reference::verdict::{outcome, Outcome, Request};
use std::cmp::Ordering;

pub const REACH: &[Reach] = &[
    Reach {
        subject: "terms of pairs",
        cases: 1_500,
        least: 10,
        look: shapes,
        features: &[
            "{one word|few words|some words|many words|2,048 words}",
            "{deeper than 500|under more than 1,000 binders}",
            "variable bound {next|first|between}",
            "free number{| 255}{| under binders}",
            "{abstraction|application|application of a constructor|application of a numeral}",
            "{constructor|subject} of {no|one|several|most} arguments",
            "{constructor|branch} of tag 255",
            "branch of a tag above 15",
            "case of {no|one|several|most} branches",
            "branch that binds {no|one|several|most}",
            "{beta redex|case redex|numeral|default taken} within \
             {nothing|an abstraction|a function|an argument|a constructor|a subject|a branch}",
            "case redex of {no|one|several|most} arguments",
            "case redex by {a later|an earlier} branch",
            "stuck by {the tag|too few bound|too many bound}",
            "numeral {0|31|between}",
            "default beside {no|one|several|most} others",
            "default beside {the branch taken|the tag and too few bound|the tag and too many bound}",
            "default on {a variable|an abstraction|an application|a case|a numeral}",
            "{redex|numeral} in the body of a stuck default",
            "default taken{ alone| beside most|, no dropped|, one dropped|, several dropped|, most dropped}",
            "{loop|numeral} dropped",
            "{bound|free} variable in a default taken",
        ],
    },
    Reach {
        subject: "relations of pairs",
        cases: 2_000,
        least: 10,
        look: relations,
        features: &[
            "{equal at once|equal with a numeral|equal lengths|two numerals}",
            "{both normal|both move|one moves}",
            "the {left's next is the right|right's next is the left|left is its own next}",
            "a step {shortens|keeps the length|lengthens}",
            "numerals are the only redexes",
            "{a numeral before another redex|another redex before a numeral}",
        ],
    },
    Reach {
        subject: "parts thrown away",
        cases: 3_000,
        least: 10,
        look: thrown_away,
        features: &["{loop|growth|numeral}, \
             {first argument|second argument|constructor's argument|other branch}"],
    },
    Reach {
        subject: "ends of rounds",
        cases: 2_400,
        least: 2,
        look: ends,
        features: &[
            "{Same|Different|Budget|Full} after {no contraction|a few|some|many}",
            "{Same|Different|Budget|Full}, {a default taken|a numeral contracted}",
            "{Same|Different}, C words {on the way|by a numeral}",
            "{Same|Different}, {all spent|one unspent|much unspent}",
            "Budget, {0 unspent where 1 move|0 unspent where 2 move|1 unspent where 2 move}",
            "{Budget before Full|Budget, C words next|Budget, a numeral next}",
            "Full where {1|2} move",
            "Full, {the budget just enough|budget left}",
            "Full by {one word|one of many words|more|a numeral|a numeral's last word}",
            "Full {with a term of C words|in 16 words}",
        ],
    },
    Reach {
        subject: "limits of a press",
        cases: 1_200,
        least: 2,
        look: limits,
        features: &[
            "C {16|2,048}",
            "a term of {C|2,048} words",
            "budget {0|1,000,000}",
            "all of the largest budget spent",
        ],
    },
    Reach {
        subject: "deep terms",
        cases: 800,
        least: 2,
        look: deep,
        // Levels of two words may leave one over, which then is an abstraction.
        features: &[
            "{abstractions|constructors|last arguments|subjects|branches|functions|arguments} around \
             {free number 0|free number 255|a numeral|a redex|no redex}",
            "{abstractions|last arguments|branches|functions|arguments} around a bound variable",
        ],
    },
];

/// Where a part stands in its term.
#[derive(Clone, Copy)]
struct Place {
    binders: u32,
    depth: usize,
    within: &'static str,
}

fn parts<'a>(term: &'a Term, place: Place, found: &mut Vec<(&'a Term, Place)>) {
    found.push((term, place));
    let mut inside = |part: &'a Term, binders, within| {
        let place = Place {
            binders: place.binders + binders,
            depth: place.depth + 1,
            within,
        };
        parts(part, place, found);
    };
    match term {
        Term::Var(_) | Term::Num(_) => {}
        Term::Abs(body) => inside(body, 1, "an abstraction"),
        Term::App(function, argument) => {
            inside(function, 0, "a function");
            inside(argument, 0, "an argument");
        }
        Term::Con { args, .. } => args.iter().for_each(|arg| inside(arg, 0, "a constructor")),
        Term::Case {
            scrutinee,
            branches,
        } => {
            inside(scrutinee, 0, "a subject");
            for branch in branches {
                inside(&branch.body, branch.bound, "a branch");
            }
        }
    }
}

fn all_parts(term: &Term) -> Vec<(&Term, Place)> {
    let top = Place {
        binders: 0,
        depth: 0,
        within: "nothing",
    };
    let mut found = Vec::new();
    parts(term, top, &mut found);
    found
}

fn few_or_most(count: usize, most: usize) -> &'static str {
    match count {
        0 => "no",
        1 => "one",
        _ if count == most => "most",
        _ => "several",
    }
}

fn shapes(case: u64, census: &mut Census) {
    let (left, right) = pair(&mut Random::new(31, case));
    for term in [left, right] {
        census.meet(match term.size() {
            1 => "one word",
            2..=15 => "few words",
            16..=400 => "some words",
            401..=2_047 => "many words",
            _ => "2,048 words",
        });
        for (part, place) in all_parts(&term) {
            look_at_part(part, place, census);
        }
    }
}

fn look_at_part(part: &Term, place: Place, census: &mut Census) {
    census.meet_if(place.depth == 500, "deeper than 500");
    census.meet_if(place.binders > 1_000, "under more than 1,000 binders");
    match part {
        Term::Var(index) => look_at_variable(*index, place.binders, census),
        Term::Abs(_) => census.meet("abstraction"),
        Term::App(function, _) => match function.as_ref() {
            Term::Abs(_) => census.meet(format!("beta redex within {}", place.within)),
            Term::Con { .. } => census.meet("application of a constructor"),
            Term::Num(_) => census.meet("application of a numeral"),
            _ => census.meet("application"),
        },
        Term::Con { tag, args } => {
            let name = match place.within {
                "a subject" => "subject",
                _ => "constructor",
            };
            let count = few_or_most(args.len(), MOST_ARGUMENTS);
            census.meet(format!("{name} of {count} arguments"));
            census.meet_if(*tag == 255, "constructor of tag 255");
        }
        Term::Case {
            scrutinee,
            branches,
        } => look_at_case(scrutinee, branches, place, census),
        Term::Num(numeral) => {
            census.meet(format!("numeral within {}", place.within));
            census.meet(match numeral {
                0 => "numeral 0",
                31 => "numeral 31",
                _ => "numeral between",
            });
        }
    }
}

/// What a variable is: bound near or far, or free at the limit or below.
fn look_at_variable(index: u32, binders: u32, census: &mut Census) {
    census.meet(match index.checked_sub(binders) {
        None if index == 0 => "variable bound next",
        None if index + 1 == binders => "variable bound first",
        None => "variable bound between",
        Some(255) if binders == 0 => "free number 255",
        Some(255) => "free number 255 under binders",
        Some(_) if binders == 0 => "free number",
        Some(_) => "free number under binders",
    });
}

fn look_at_case(scrutinee: &Term, branches: &[Branch], place: Place, census: &mut Census) {
    let count = few_or_most(branches.len(), MOST_BRANCHES);
    census.meet(format!("case of {count} branches"));
    for branch in branches {
        census.meet_if(branch.tag == 255, "branch of tag 255");
        census.meet_if((16..255).contains(&branch.tag), "branch of a tag above 15");
        let bound = few_or_most(branch.bound as usize, MOST_BOUND);
        census.meet(format!("branch that binds {bound}"));
    }
    let default = branches.iter().find(|branch| branch.is_default());
    if let Some(default) = default {
        look_at_default(scrutinee, branches, &default.body, place, census);
    }
    let Term::Con { tag, args } = scrutinee else {
        return;
    };
    let found = branches.iter().position(|branch| branch.tag == *tag);
    match found.map(|at| (at, (branches[at].bound as usize).cmp(&args.len()))) {
        None => census.meet_if(default.is_none(), "stuck by the tag"),
        Some((_, Ordering::Less)) => census.meet("stuck by too few bound"),
        Some((_, Ordering::Greater)) => census.meet("stuck by too many bound"),
        Some((at, Ordering::Equal)) => {
            let count = few_or_most(args.len(), MOST_ARGUMENTS);
            census.meet(format!("case redex of {count} arguments"));
            census.meet(format!("case redex within {}", place.within));
            census.meet_if(at > 0, "case redex by a later branch");
            census.meet_if(at + 1 < branches.len(), "case redex by an earlier branch");
        }
    }
}

/// A default: what it is taken or stuck by, and what its body is.
fn look_at_default(
    scrutinee: &Term,
    branches: &[Branch],
    body: &Term,
    place: Place,
    census: &mut Census,
) {
    let others = branches.len() - 1;
    let beside = few_or_most(others, MOST_BRANCHES - 1);
    census.meet(format!("default beside {beside} others"));
    let Term::Con { tag, args } = scrutinee else {
        census.meet(format!("default on {}", name(scrutinee)));
        census.meet_if(step(body).is_some(), "redex in the body of a stuck default");
        census.meet_if(has_numeral(body), "numeral in the body of a stuck default");
        return;
    };
    if let Some(own) = branches.iter().find(|branch| branch.tag == *tag) {
        census.meet(match (own.bound as usize).cmp(&args.len()) {
            Ordering::Less => "default beside the tag and too few bound",
            Ordering::Equal => "default beside the branch taken",
            Ordering::Greater => "default beside the tag and too many bound",
        });
        return;
    }
    let dropped = few_or_most(args.len(), MOST_ARGUMENTS);
    census.meet(format!("default taken within {}", place.within));
    census.meet(format!("default taken, {dropped} dropped"));
    census.meet_if(beside == "no", "default taken alone");
    census.meet_if(beside == "most", "default taken beside most");
    census.meet_if(args.contains(&families::omega()), "loop dropped");
    census.meet_if(has_numeral(scrutinee), "numeral dropped");
    let around = place.binders;
    let outer = |(part, inside): &(&Term, u32)| match part {
        Term::Var(index) => (*inside..inside + around).contains(index),
        _ => false,
    };
    let is_bound = subterms(body).iter().any(outer);
    census.meet_if(is_bound, "bound variable in a default taken");
    let is_free = body.largest_free() > Some(around);
    census.meet_if(is_free, "free variable in a default taken");
}

/// What a term is by its first word.
fn name(term: &Term) -> &'static str {
    match term {
        Term::Var(_) => "a variable",
        Term::Abs(_) => "an abstraction",
        Term::App(..) => "an application",
        Term::Con { .. } => "a constructor",
        Term::Case { .. } => "a case",
        Term::Num(_) => "a numeral",
    }
}

fn has_numeral(term: &Term) -> bool {
    let parts = subterms(term);
    parts.iter().any(|(part, _)| matches!(part, Term::Num(_)))
}

/// How the two terms of a pair are related at the start and after a step.
fn relations(case: u64, census: &mut Census) {
    let (left, right) = pair(&mut Random::new(32, case));
    let next = [step(&left), step(&right)];
    census.meet(match next.iter().flatten().count() {
        0 => "both normal",
        1 => "one moves",
        _ => "both move",
    });
    let equal = left == right;
    let leads = |from: usize, to: &Term| next[from].as_ref() == Some(to);
    census.meet_if(equal, "equal at once");
    census.meet_if(equal && has_numeral(&left), "equal with a numeral");
    census.meet_if(!equal && left.size() == right.size(), "equal lengths");
    census.meet_if(leads(0, &right), "the left's next is the right");
    census.meet_if(leads(1, &left), "the right's next is the left");
    census.meet_if(leads(0, &left), "the left is its own next");
    let both = matches!((&left, &right), (Term::Num(_), Term::Num(_)));
    census.meet_if(both && !equal, "two numerals");
    for (term, next) in [(left, &next[0]), (right, &next[1])] {
        if let Some(next) = next {
            census.meet(match next.size().cmp(&term.size()) {
                Ordering::Less => "a step shortens",
                Ordering::Equal => "a step keeps the length",
                Ordering::Greater => "a step lengthens",
            });
            look_at_order(&term, census);
        }
    }
}

/// Which redex comes first where a numeral is one of them.
fn look_at_order(term: &Term, census: &mut Census) {
    let parts = subterms(term).into_iter().map(|(part, _)| part);
    let redexes: Vec<&Term> = parts.filter(|part| contractum(part).is_some()).collect();
    let is_numeral = |redex: &&Term| matches!(redex, Term::Num(_));
    if redexes.iter().any(is_numeral) {
        census.meet(match redexes.iter().all(is_numeral) {
            true => "numerals are the only redexes",
            false if contracts_numeral(term) => "a numeral before another redex",
            false => "another redex before a numeral",
        });
    }
}

/// Parts that at most two contractions throw away, to leave a variable.
fn thrown_away(case: u64, census: &mut Census) {
    let (left, _) = families::pair(&mut Random::new(37, case));
    let last = std::iter::successors(Some(left.clone()), step)
        .take(3)
        .last();
    if !matches!(last, Some(Term::Var(_))) {
        return;
    }
    for (name, spare) in [
        ("loop", families::omega()),
        ("growth", families::growing()),
        ("numeral", num(31)),
    ] {
        if let Some(place) = place_of(&left, &spare) {
            census.meet(format!("{name}, {place}"));
        }
    }
}

fn place_of(term: &Term, spare: &Term) -> Option<&'static str> {
    match term {
        Term::App(function, last) => match function.as_ref() {
            Term::App(_, first) if **first == *spare => Some("first argument"),
            Term::App(..) if **last == *spare => Some("second argument"),
            _ => None,
        },
        Term::Case {
            scrutinee,
            branches,
        } => match scrutinee.as_ref() {
            Term::Con { args, .. } if args.contains(spare) => Some("constructor's argument"),
            Term::Con { .. } if branches.iter().any(|b| b.body == *spare) => Some("other branch"),
            _ => None,
        },
        _ => None,
    }
}

/// How the rounds of a trial end.
fn ends(case: u64, census: &mut Census) {
    let wish = VERDICTS[case as usize % VERDICTS.len()];
    let trial = trial(&mut Random::new(33, case), Some(wish));
    let (capacity, budget) = (trial.capacity, trial.budget);
    let first = [trial.left.clone(), trial.right.clone()];
    let end = rounds(trial.left, trial.right, capacity, budget);
    let (verdict, unspent) = (end.verdict, budget - end.spent);
    let decides = matches!(verdict, Verdict::Same | Verdict::Different);
    if end.spent <= 50 {
        let given = given(first, end.spent);
        let at_limit = decides && given.longest.0 == capacity;
        census.meet_if(at_limit, format!("{verdict}, C words on the way"));
        let by_numeral = at_limit && given.longest.1;
        census.meet_if(by_numeral, format!("{verdict}, C words by a numeral"));
        census.meet_if(given.numeral, format!("{verdict}, a numeral contracted"));
        census.meet_if(given.default, format!("{verdict}, a default taken"));
    }
    census.meet(match end.spent {
        0 => format!("{verdict} after no contraction"),
        1..=3 => format!("{verdict} after a few"),
        4..=50 => format!("{verdict} after some"),
        _ => format!("{verdict} after many"),
    });
    let sides = [&end.left, &end.right];
    let next: Vec<(&Term, Term)> = sides
        .into_iter()
        .filter_map(|side| Some((side, step(side)?)))
        .collect();
    let moving = next.len() as u32;
    let longest = next.iter().map(|(_, next)| next.size()).max().unwrap_or(0);
    let over = longest.saturating_sub(capacity);
    match verdict {
        Verdict::Same | Verdict::Different => {
            census.meet_if(unspent == 0, format!("{verdict}, all spent"));
            census.meet_if(unspent == 1, format!("{verdict}, one unspent"));
            census.meet_if(unspent > 1_000, format!("{verdict}, much unspent"));
        }
        Verdict::Budget => {
            census.meet(format!("Budget, {unspent} unspent where {moving} move"));
            census.meet_if(over > 0, "Budget before Full");
            census.meet_if(longest == capacity, "Budget, C words next");
            let numeral = sides.into_iter().any(contracts_numeral);
            census.meet_if(numeral, "Budget, a numeral next");
        }
        Verdict::Full => {
            let size = end.left.size().max(end.right.size());
            census.meet(format!("Full where {moving} move"));
            census.meet(match unspent == moving {
                true => "Full, the budget just enough",
                false => "Full, budget left",
            });
            census.meet(match over {
                1 => "Full by one word",
                _ => "Full by more",
            });
            // The shortest workspace that holds the first terms would be Full by more.
            let at_once = end.spent == 0 && size >= 16 && longest > size + 1;
            census.meet_if(over == 1 && at_once, "Full by one of many words");
            census.meet_if(size == capacity, "Full with a term of C words");
            census.meet_if(capacity == 16, "Full in 16 words");
            let mut long = next.iter().filter(|(_, next)| next.size() > capacity);
            if long.all(|(side, _)| contracts_numeral(side)) {
                census.meet(match over {
                    1 => "Full by a numeral's last word",
                    _ => "Full by a numeral",
                });
            }
        }
    }
}

/// What contractions of a pair's rounds give.
#[derive(Default)]
struct Given {
    /// The longest term, and whether a numeral's contraction gives it.
    longest: (usize, bool),
    /// Whether any is a numeral's, or takes a default.
    numeral: bool,
    default: bool,
}

/// What so many contractions of a pair's rounds give.
fn given(mut sides: [Term; 2], contractions: u32) -> Given {
    let (mut made, mut given) = (0, Given::default());
    while made < contractions {
        for side in &mut sides {
            if let Some(next) = step(side) {
                let by_numeral = contracts_numeral(side);
                given.numeral |= by_numeral;
                given.default |= takes_default(side);
                *side = next;
                made += 1;
                given.longest = given.longest.max((side.size(), by_numeral));
            }
        }
    }
    given
}

fn limits(case: u64, census: &mut Census) {
    let verdict = VERDICTS[case as usize % VERDICTS.len()];
    let input = inputs::aimed(&mut Random::new(34, case), Aim::Verdict(verdict));
    let (Some(request), Outcome::Answered(answer)) = (Request::read(&input), outcome(&input))
    else {
        return;
    };
    let (capacity, longest) = (request.capacity, answer.left.max(answer.right));
    census.meet_if(capacity == 16, "C 16");
    census.meet_if(capacity == 2_048, "C 2,048");
    census.meet_if(longest == capacity, "a term of C words");
    census.meet_if(longest == 2_048, "a term of 2,048 words");
    census.meet_if(request.budget == 0, "budget 0");
    census.meet_if(request.budget == 1_000_000, "budget 1,000,000");
    census.meet_if(answer.spent >= 999_999, "all of the largest budget spent");
}

fn deep(case: u64, census: &mut Census) {
    let random = &mut Random::new(35, case);
    let size = random.between(100, 2_048);
    let term = families::deep(random, size);
    let way = way(&term);
    let (innermost, binders) = innermost(&term, way == "functions", 0);
    census.meet(match innermost {
        Term::Var(index) if *index < binders => format!("{way} around a bound variable"),
        Term::Var(index) => format!("{way} around free number {}", index - binders),
        _ => format!("{way} around a numeral"),
    });
    census.meet(match step(&term) {
        Some(_) => format!("{way} around a redex"),
        None => format!("{way} around no redex"),
    });
}

/// The way in which a deep term goes on, by its outermost level.
fn way(term: &Term) -> &'static str {
    match term {
        Term::Abs(_) => "abstractions",
        Term::Con { args, .. } if args.len() == 1 => "constructors",
        Term::Con { .. } => "last arguments",
        Term::Case { branches, .. } if branches.is_empty() => "subjects",
        Term::Case { .. } => "branches",
        Term::App(function, _) if function.size() > 1 => "functions",
        _ => "arguments",
    }
}

/// The innermost variable or numeral and the binders around it.
fn innermost(term: &Term, functions: bool, binders: u32) -> (&Term, u32) {
    match term {
        Term::Var(_) | Term::Num(_) => (term, binders),
        Term::Abs(body) => innermost(body, functions, binders + 1),
        Term::Con { args, .. } => innermost(&args[args.len() - 1], functions, binders),
        Term::Case {
            scrutinee,
            branches,
        } => match branches.first() {
            Some(branch) => innermost(&branch.body, functions, binders + branch.bound),
            None => innermost(scrutinee, functions, binders),
        },
        // The identity is applied to the innermost variable.
        Term::App(function, argument) => match function.as_ref() {
            Term::Abs(body) if **body == Term::Var(0) => innermost(argument, functions, binders),
            _ if functions => innermost(function, functions, binders),
            _ => innermost(argument, functions, binders),
        },
    }
}
