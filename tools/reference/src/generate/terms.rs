//! Random accepted terms of a given size.

use crate::random::Random;
use crate::term::{
    abs, app, branch, case, con, num, var, Branch, Term, LARGEST_FREE, LARGEST_NUMERAL,
    MOST_ARGUMENTS, MOST_BOUND, MOST_BRANCHES, TAGS, WORKSPACE,
};

/// What a random term is rich in, each in per cent.
#[derive(Clone, Copy, Debug)]
pub struct Style {
    /// Places that become a redex where one fits.
    pub redexes: usize,
    /// Places that become a constructor or a case.
    pub data: usize,
    /// Variables that are free.
    pub free: usize,
    /// Places of one word that become a numeral.
    pub numerals: usize,
    /// Cases whose first branch is a default.
    pub defaults: usize,
    /// Binders to which half of the variables point: how many binders stand
    /// around them, and their number.
    pub aim: Option<(u32, u32)>,
}

impl Style {
    pub fn random(random: &mut Random) -> Self {
        Style {
            redexes: random.pick(&[0, 5, 20, 50]),
            data: random.pick(&[0, 30, 50, 90]),
            free: random.pick(&[0, 20, 60]),
            numerals: random.pick(&[0, 0, 10, 40]),
            defaults: random.pick(&[0, 20, 50]),
            aim: None,
        }
    }
}

/// A size of a term, small ones more often.
pub fn size(random: &mut Random) -> usize {
    let most = match random.below(20) {
        0..=11 => 24,
        12..=16 => 80,
        17..=18 => 400,
        _ => *WORKSPACE.end(),
    };
    random.between(1, most)
}

/// A term of exactly `size` words under `binders` binders.
pub fn term(random: &mut Random, size: usize, binders: u32, style: Style) -> Term {
    let data = random.percent(style.data);
    match size {
        0 | 1 if data && random.percent(30) => con(tag(random), Vec::new()),
        0 | 1 if random.percent(style.numerals) => numeral(random),
        0 | 1 => variable(random, binders, style),
        4.. if random.percent(style.redexes) => redex(random, size, binders, style, data),
        _ if data && random.percent(50) => constructor(random, size, binders, style),
        _ if data => any_case(random, size, binders, style),
        3.. if random.percent(60) => {
            let sizes = split(random, size - 1, 2);
            app(
                term(random, sizes[0], binders, style),
                term(random, sizes[1], binders, style),
            )
        }
        _ => abs(term(random, size - 1, binders + 1, style)),
    }
}

/// A variable, bound or free; free numbers at the limit included.
pub fn variable(random: &mut Random, binders: u32, style: Style) -> Term {
    if let Some((outside, count)) = style.aim.filter(|_| random.percent(50)) {
        let binder = outside + random.below(count as usize) as u32;
        return var(binders - 1 - binder);
    }
    let around = binders as usize;
    if around == 0 || random.percent(style.free) {
        let small = random.below(3) as u32;
        let any = random.below(LARGEST_FREE as usize + 1) as u32;
        return var(binders + random.pick(&[small, small, any, LARGEST_FREE]));
    }
    let near = random.below(around.min(3));
    let any = random.below(around);
    var(random.pick(&[near, near, any]) as u32)
}

/// A numeral; small ones and the limits more often.
pub fn numeral(random: &mut Random) -> Term {
    let small = random.below(4) as u32;
    let any = random.below(LARGEST_NUMERAL as usize + 1) as u32;
    num(random.pick(&[small, small, any, 0, LARGEST_NUMERAL]))
}

fn tag(random: &mut Random) -> u32 {
    match random.below(8) {
        0 => *TAGS.end(),
        1 => random.between(1, *TAGS.end() as usize) as u32,
        _ => random.between(1, 3) as u32,
    }
}

/// `parts` numbers above 0 that sum to `total`, which is at least `parts`.
fn split(random: &mut Random, total: usize, parts: usize) -> Vec<usize> {
    let mut left = total;
    let mut sizes: Vec<usize> = (1..parts)
        .map(|made| {
            let most = left - (parts - made);
            let size = if random.percent(40) {
                1
            } else {
                random.between(1, most)
            };
            left -= size;
            size
        })
        .collect();
    sizes.push(left);
    sizes
}

/// A count of parts up to `most`, few ones more often.
fn count(random: &mut Random, most: usize) -> usize {
    let few = random.below(most.min(3) + 1);
    let any = random.below(most + 1);
    random.pick(&[few, few, few, any, most])
}

/// Strictly rising tags for `count` branches, now and then up to the largest.
fn rising_tags(random: &mut Random, count: usize) -> Vec<u32> {
    let widest = random.pick(&[1, 1, *TAGS.end() as usize / MOST_BRANCHES]);
    let mut last = 0;
    let mut tags: Vec<u32> = (0..count)
        .map(|_| {
            last += random.between(1, widest) as u32;
            last
        })
        .collect();
    if let Some(last) = tags.last_mut().filter(|_| random.percent(10)) {
        *last = *TAGS.end();
    }
    tags
}

/// Strictly rising tags for `count` branches, a default's among them or not.
fn branch_tags(random: &mut Random, count: usize, style: Style) -> Vec<u32> {
    if count > 0 && random.percent(style.defaults) {
        let others = rising_tags(random, count - 1);
        return std::iter::once(0).chain(others).collect();
    }
    rising_tags(random, count)
}

/// The tag of a constructor for which a branch is: itself, or for a default
/// one that no branch has.
fn tag_for(random: &mut Random, branch: u32, tags: &[u32]) -> u32 {
    if branch > 0 {
        return branch;
    }
    loop {
        let tag = tag(random);
        if !tags.contains(&tag) {
            return tag;
        }
    }
}

fn constructor(random: &mut Random, size: usize, binders: u32, style: Style) -> Term {
    let args = count(random, MOST_ARGUMENTS.min(size - 2)) + 1;
    let sizes = split(random, size - 1, args.min(MOST_ARGUMENTS));
    let tag = tag(random);
    con(tag, terms(random, &sizes, binders, style))
}

fn terms(random: &mut Random, sizes: &[usize], binders: u32, style: Style) -> Vec<Term> {
    sizes
        .iter()
        .map(|size| term(random, *size, binders, style))
        .collect()
}

/// A case of any scrutinee; a fitting branch is there only by chance.
fn any_case(random: &mut Random, size: usize, binders: u32, style: Style) -> Term {
    let count = count(random, MOST_BRANCHES.min((size - 2) / 2));
    let sizes = split(random, size - 1 - count, count + 1);
    let scrutinee = term(random, sizes[0], binders, style);
    let bounds: Vec<u32> = (0..count)
        .map(|_| random.pick(&[0, 0, 1, 1, 2, 3, MOST_BOUND as u32]))
        .collect();
    let tags = branch_tags(random, count, style);
    case(
        scrutinee,
        arms(random, &tags, &bounds, &sizes[1..], binders, style),
    )
}

/// Branches with these heads, of which a default has no use for its bound.
fn arms(
    random: &mut Random,
    tags: &[u32],
    bounds: &[u32],
    sizes: &[usize],
    binders: u32,
    style: Style,
) -> Vec<Branch> {
    let heads = tags.iter().zip(bounds);
    heads
        .zip(sizes)
        .map(|((tag, bound), size)| {
            let bound = if *tag == 0 { 0 } else { *bound };
            branch(*tag, bound, term(random, *size, binders + bound, style))
        })
        .collect()
}

/// A redex of at least 4 words; of the case rule if `data` is set.
fn redex(random: &mut Random, size: usize, binders: u32, style: Style, data: bool) -> Term {
    if data {
        return case_redex(random, size, binders, style);
    }
    let sizes = split(random, size - 2, 2);
    app(
        abs(term(random, sizes[0], binders + 1, style)),
        term(random, sizes[1], binders, style),
    )
}

/// A case of a constructor with a default for it or a branch of its tag, whose
/// bound count is now and then another, which makes the case stuck.
fn case_redex(random: &mut Random, size: usize, binders: u32, style: Style) -> Term {
    let args = count(random, MOST_ARGUMENTS.min(size - 4));
    let branches = 1 + count(random, 2.min((size - 4 - args) / 2));
    let sizes = split(random, size - 2 - branches, args + branches);
    let tags = branch_tags(random, branches, style);
    let taken = random.below(branches);
    let mut bounds: Vec<u32> = (0..branches).map(|_| random.below(4) as u32).collect();
    if random.percent(90) {
        bounds[taken] = args as u32;
    }
    let tag = tag_for(random, tags[taken], &tags);
    let scrutinee = con(tag, terms(random, &sizes[..args], binders, style));
    case(
        scrutinee,
        arms(random, &tags, &bounds, &sizes[args..], binders, style),
    )
}

/// All parts of a term that are terms, in the order of their first words and
/// each with the number of binders around it.
pub fn subterms(term: &Term) -> Vec<(&Term, u32)> {
    let mut found = Vec::new();
    collect(term, 0, &mut found);
    found
}

fn collect<'a>(term: &'a Term, binders: u32, found: &mut Vec<(&'a Term, u32)>) {
    found.push((term, binders));
    match term {
        Term::Var(_) | Term::Num(_) => {}
        Term::Abs(body) => collect(body, binders + 1, found),
        Term::App(function, argument) => {
            collect(function, binders, found);
            collect(argument, binders, found);
        }
        Term::Con { args, .. } => args.iter().for_each(|arg| collect(arg, binders, found)),
        Term::Case {
            scrutinee,
            branches,
        } => {
            collect(scrutinee, binders, found);
            for branch in branches {
                collect(&branch.body, binders + branch.bound, found);
            }
        }
    }
}

/// The term with the part at `place` of [`subterms`] replaced.
pub fn replace(term: &Term, place: usize, new: &Term) -> Term {
    replace_from(term, &mut 0, place, new)
}

fn replace_from(term: &Term, next: &mut usize, place: usize, new: &Term) -> Term {
    let own = *next;
    *next += 1;
    if own == place {
        return new.clone();
    }
    let mut inside = |part: &Term| replace_from(part, next, place, new);
    match term {
        Term::Var(index) => var(*index),
        Term::Abs(body) => abs(inside(body)),
        Term::App(function, argument) => app(inside(function), inside(argument)),
        Term::Con { tag, args } => con(*tag, args.iter().map(inside).collect()),
        Term::Case {
            scrutinee,
            branches,
        } => case(
            inside(scrutinee),
            branches
                .iter()
                .map(|b| branch(b.tag, b.bound, inside(&b.body)))
                .collect(),
        ),
        Term::Num(numeral) => num(*numeral),
    }
}
