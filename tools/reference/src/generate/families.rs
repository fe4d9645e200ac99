//! Known families of pairs: arithmetic, loops, thrown-away loops, growing
//! terms, stuck terms, numerals, defaults and deep terms.

use crate::contraction::church;
use crate::random::Random;
use crate::term::{
    abs, app, branch, case, con, default, num, var, Branch, Term, LARGEST_FREE, LARGEST_NUMERAL,
    MOST_ARGUMENTS, MOST_BOUND, MOST_BRANCHES, TAGS, WORKSPACE,
};

/// A function applied to arguments one after the other.
pub fn apply(function: Term, args: impl IntoIterator<Item = Term>) -> Term {
    args.into_iter().fold(function, app)
}

/// A term under `count` abstractions.
pub fn lambdas(count: usize, body: Term) -> Term {
    (0..count).fold(body, |term, _| abs(term))
}

/// The Church numeral of `n`, or the numeral that contracts to it.
fn natural(random: &mut Random, n: u32) -> Term {
    if n <= LARGEST_NUMERAL && random.percent(40) {
        num(n)
    } else {
        church(n)
    }
}

fn church_sum(m: Term, n: Term) -> Term {
    let second = apply(var(2), [var(1), var(0)]);
    let sum = lambdas(4, apply(var(3), [var(1), second]));
    apply(sum, [m, n])
}

fn church_product(m: Term, n: Term) -> Term {
    let product = lambdas(3, app(var(2), app(var(1), var(0))));
    apply(product, [m, n])
}

/// Zero is constructor 1, the successor is constructor 2.
pub fn peano(n: usize) -> Term {
    (0..n).fold(con(1, Vec::new()), |term, _| con(2, vec![term]))
}

/// A function that gets itself as its first argument, applied.
fn recursive(function: Term, args: impl IntoIterator<Item = Term>) -> Term {
    let again = function.clone();
    apply(app(function, again), args)
}

/// The branch for zero, or a default in its place.
fn zero(random: &mut Random, body: Term) -> Branch {
    match random.percent(30) {
        true => default(body),
        false => branch(1, 0, body),
    }
}

fn peano_sum(random: &mut Random, m: Term, n: Term) -> Term {
    let rest = apply(var(3), [var(3), var(0), var(1)]);
    let arms = vec![zero(random, var(0)), branch(2, 1, con(2, vec![rest]))];
    recursive(lambdas(3, case(var(1), arms)), [m, n])
}

fn peano_predecessor(random: &mut Random, n: Term) -> Term {
    case(n, vec![zero(random, peano(0)), branch(2, 1, var(0))])
}

/// Constructor 3 for even numbers and 4 for odd ones.
fn peano_parity(random: &mut Random, n: Term) -> Term {
    let again = apply(var(3), [var(3), var(0)]);
    let arms = vec![zero(random, con(4, Vec::new())), branch(2, 1, again)];
    let odd = case(var(0), arms);
    let arms = vec![zero(random, con(3, Vec::new())), branch(2, 1, odd)];
    recursive(lambdas(2, case(var(0), arms)), [n])
}

fn doubled(term: Term) -> Term {
    app(term.clone(), term)
}

/// The loop that contracts to itself.
pub fn omega() -> Term {
    doubled(abs(doubled(var(0))))
}

/// A loop of two terms, and its second one.
fn loop_of_two() -> (Term, Term) {
    let twice = abs(doubled(var(0)));
    let outer = abs(app(twice.clone(), var(0)));
    (doubled(outer.clone()), app(twice, outer))
}

/// A term that grows by seven words with each contraction.
pub fn growing() -> Term {
    doubled(abs(app(doubled(var(0)), var(0))))
}

/// A term that grows by one constructor with each contraction.
fn growing_data() -> Term {
    doubled(abs(con(2, vec![doubled(var(0))])))
}

/// The identity applied `count` times to a term.
pub fn identities(count: usize, term: Term) -> Term {
    (0..count).fold(term, |term, _| app(abs(var(0)), term))
}

/// A pair of one of the families.
pub fn pair(random: &mut Random) -> (Term, Term) {
    match random.below(8) {
        0..=4 => other(random),
        5 | 6 => numerals(random),
        _ => defaults(random),
    }
}

/// A pair in which neither numerals nor defaults have the main part.
fn other(random: &mut Random) -> (Term, Term) {
    match random.below(5) {
        0 => arithmetic(random),
        1 => data(random),
        2 => loops(random),
        3 => thrown_away(random),
        _ => places(random),
    }
}

fn arithmetic(random: &mut Random) -> (Term, Term) {
    let (m, n) = (random.below(5) as u32, random.below(5) as u32);
    let [first, second, third, fourth] = [m, n, n, m].map(|k| natural(random, k));
    let left = match random.below(3) {
        0 => church_sum(first, second),
        _ => church_product(first, second),
    };
    let right = match random.below(5) {
        0 => church_product(third, fourth),
        1 => church_sum(third, fourth),
        2 => natural(random, m * n),
        3 => natural(random, m + n),
        _ => power(random),
    };
    (left, right)
}

/// A number to the power of another, both small.
fn power(random: &mut Random) -> Term {
    let (exponent, base) = (random.below(3) as u32, random.below(4) as u32);
    app(natural(random, exponent), natural(random, base))
}

fn data(random: &mut Random) -> (Term, Term) {
    let most = random.pick(&[6, 6, 30]);
    let (m, n) = (random.below(most), random.below(most));
    let off = usize::from(random.percent(40));
    let (choice, free) = (random.below(5), random.below(2) as u32);
    let mut sum = |m, n| peano_sum(random, m, n);
    match choice {
        0 => (sum(peano(m), peano(n)), peano(m + n + off)),
        1 => (sum(peano(m), peano(n)), sum(peano(n), peano(m))),
        2 => {
            let left = peano_predecessor(random, peano(m));
            (left, peano(m.saturating_sub(1)))
        }
        3 => {
            let sum = sum(peano(m), peano(n));
            let parity = con(3 + ((m + n + off) % 2) as u32, Vec::new());
            (peano_parity(random, sum), parity)
        }
        _ => {
            let left = sum(peano(m), var(0));
            (left, sum(var(free), peano(n)))
        }
    }
}

fn loops(random: &mut Random) -> (Term, Term) {
    let free = var(random.below(3) as u32);
    match random.below(8) {
        0 => (omega(), omega()),
        1 => (omega(), free),
        2 => (identities(random.between(1, 3), omega()), omega()),
        3 => loop_of_two(),
        4 => (growing(), free),
        5 => (growing_data(), growing()),
        6 => (growing_data(), con(2, vec![growing_data()])),
        _ => (
            case(omega(), vec![branch(1, 0, free.clone())]),
            app(free, omega()),
        ),
    }
}

/// An endless term or a numeral in a place that the leftmost outermost order
/// throws away.
fn thrown_away(random: &mut Random) -> (Term, Term) {
    let kept = var(random.below(4) as u32);
    let spare = match random.below(3) {
        0 => omega(),
        1 => growing(),
        _ => num(LARGEST_NUMERAL),
    };
    let left = match random.below(4) {
        0 => apply(lambdas(2, var(1)), [kept.clone(), spare]),
        1 => apply(lambdas(2, var(0)), [spare, kept.clone()]),
        2 => case(
            con(2, vec![kept.clone(), spare]),
            vec![branch(1, 0, peano(0)), branch(2, 2, var(1))],
        ),
        _ => case(
            con(1, Vec::new()),
            vec![branch(1, 0, kept.clone()), branch(2, 1, spare)],
        ),
    };
    let right = match random.below(3) {
        0 => identities(random.below(4), kept),
        1 => var(4),
        _ => kept,
    };
    (left, right)
}

/// Redexes under binders, in arguments and in branches, stuck places and
/// free numbers at the limit.
fn places(random: &mut Random) -> (Term, Term) {
    let free = random.pick(&[0, 1, 2, LARGEST_FREE - 1, LARGEST_FREE]);
    let step = |binders: u32| app(abs(var(1)), var(binders + free));
    match random.below(8) {
        0 => (lambdas(3, step(3)), lambdas(3, var(0))),
        1 => (
            con(9, vec![step(0), step(0), var(free)]),
            con(9, vec![step(0), var(free), var(free)]),
        ),
        2 => (
            case(
                var(free),
                vec![branch(1, 0, step(0)), branch(7, 2, step(2))],
            ),
            case(var(free), vec![branch(1, 0, var(0)), branch(7, 2, var(0))]),
        ),
        3 => (
            app(con(1, vec![step(0)]), step(0)),
            app(con(1, vec![var(0)]), var(0)),
        ),
        // The branch of the tag binds another number than the arguments.
        4 => (
            case(con(1, vec![var(0)]), vec![branch(1, 0, step(0))]),
            identities(2, var(0)),
        ),
        // Two arguments exchanged, put under a binder of the branch's body.
        5 => (
            case(
                con(2, vec![var(0), var(free)]),
                vec![branch(
                    2,
                    2,
                    abs(con(3, vec![var(0), var(1), var(2), var(3)])),
                )],
            ),
            abs(con(3, vec![var(0), var(free + 1), var(1), var(1)])),
        ),
        // The example of section 2.2 of Gregoire and Leroy and its normal form.
        6 => (
            app(abs(var(0)), abs(apply(abs(var(0)), [var(0), abs(var(0))]))),
            abs(app(var(0), abs(var(0)))),
        ),
        // A wrapper is another term: eta is left out.
        _ => (abs(app(var(1 + free), var(0))), identities(1, var(free))),
    }
}

/// Numerals alone, applied, as arguments and subjects, copied, side by side and
/// where their contraction makes a long term.
pub fn numerals(random: &mut Random) -> (Term, Term) {
    let any = random.below(LARGEST_NUMERAL as usize + 1) as u32;
    let n = random.pick(&[0, 1, any, any, LARGEST_NUMERAL]);
    let other = n + u32::from(random.percent(50));
    match random.below(12) {
        0 => (num(n), church(other)),
        1 | 2 | 11 => (num(n), num(other % (LARGEST_NUMERAL + 1))),
        3..=5 => numerals_applied(random, n, other),
        6 => {
            let count = random.pick(&[2, 3, MOST_ARGUMENTS]);
            let right = (0..count).map(|_| natural(random, other)).collect();
            (con(7, vec![num(n); count]), con(7, right))
        }
        7 => {
            let depth = random.pick(&[5, 13, 100, 1_900, WORKSPACE.end() - 64]);
            (lambdas(depth, num(n)), lambdas(depth, var(0)))
        }
        // Copies of a numeral stay numerals until they are reached.
        8 => {
            let copies = abs(abs(con(3, vec![var(1), var(0), var(1)])));
            let right = abs(con(3, vec![num(n), var(0), natural(random, other)]));
            (app(copies, num(n)), right)
        }
        9 => {
            let arms = vec![branch(1, 0, var(0)), branch(2, 1, num(n))];
            let right = case(natural(random, other), arms.clone());
            (case(num(n), arms), right)
        }
        _ => (app(var(0), num(n)), app(var(0), natural(random, other))),
    }
}

/// Numeral `n` as a function, against what comes of `other`.
fn numerals_applied(random: &mut Random, n: u32, other: u32) -> (Term, Term) {
    let m = random.below(4) as u32;
    match random.below(3) {
        0 => {
            let successor = abs(con(2, vec![var(0)]));
            let sum = apply(num(n), [successor, peano(0)]);
            (sum, peano(other as usize))
        }
        1 => (app(num(m), num(2)), natural(random, 1 << (other % 4))),
        _ => (church_sum(num(m), num(n)), natural(random, m + other)),
    }
}

/// Cases with a default, taken or stuck.
pub fn defaults(random: &mut Random) -> (Term, Term) {
    match random.below(3) {
        0 => stuck_default(random),
        _ => taken_default(random),
    }
}

/// Defaults that are taken, in front of other pairs and again and again, with
/// outer variables in their bodies.
pub fn taken_default(random: &mut Random) -> (Term, Term) {
    match random.below(7) {
        // The body has the subject in it, and a free variable.
        0 => {
            let body = app(var(0), var(1));
            let function = abs(case(var(0), vec![default(body), branch(2, 1, var(0))]));
            let subject = con(3, spares(random));
            let free = var(random.below(2) as u32);
            (app(function, subject.clone()), app(subject, free))
        }
        1 => {
            let again = con(2, vec![doubled(var(0))]);
            let left = doubled(abs(default_around(random, again)));
            (left, random.pick(&[var, num])(0))
        }
        _ => {
            let (left, right) = other(random);
            let right = match random.percent(30) {
                true => default_around(random, right),
                false => right,
            };
            (default_around(random, left), right)
        }
    }
}

/// What may be dropped; some of it is endless.
fn spare(random: &mut Random) -> Term {
    match random.below(5) {
        0 => omega(),
        1 => growing(),
        2 => num(LARGEST_NUMERAL),
        free => var(free as u32),
    }
}

/// Terms that may be dropped, at most as many as a constructor has arguments.
fn spares(random: &mut Random) -> Vec<Term> {
    let count = random.pick(&[0, 0, 1, 2, MOST_ARGUMENTS]);
    (0..count).map(|_| spare(random)).collect()
}

/// A case that takes its default, which has the term as its body; beside it are
/// up to as many other branches as there can be.
fn default_around(random: &mut Random, body: Term) -> Term {
    let any = random.between(1, *TAGS.end() as usize) as u32;
    let tag = random.pick(&[1, 2, 3, any, *TAGS.end()]);
    let others = random.pick(&[0, 0, 1, 2, MOST_BRANCHES - 1]);
    let subject = con(tag, spares(random));
    let tags = TAGS.filter(|other| *other != tag).take(others);
    let mut arms = vec![default(body)];
    arms.extend(tags.map(|tag| branch(tag, random.below(3) as u32, spare(random))));
    case(subject, arms)
}

/// A case with a default that is stuck, by the count of a listed tag or by its
/// subject, against what the default would give or what the case comes to.
pub fn stuck_default(random: &mut Random) -> (Term, Term) {
    let free = random.below(3) as u32;
    let n = random.below(3) as u32;
    let bodies = [app(abs(var(0)), var(free)), num(n), var(free)];
    let body = random.pick(&bodies.each_ref());
    let normal = match body {
        Term::Num(_) => church(n),
        _ => var(free),
    };
    let count = random.pick(&[0, 1, 2, MOST_ARGUMENTS]);
    let bound = (count + random.between(1, 3)) % (MOST_BOUND + 1);
    let subject = match random.below(8) {
        0 => var(free),
        1 => abs(var(0)),
        2 => num(n),
        3 => app(var(0), con(3, Vec::new())),
        _ => con(2, vec![var(free); count]),
    };
    let of = |body: &Term| {
        let arms = vec![default(body.clone()), branch(2, bound as u32, num(0))];
        case(subject.clone(), arms)
    };
    match random.percent(50) {
        true => (of(body), normal),
        false => (of(body), of(&normal)),
    }
}

/// A term of exactly `size` words, at least 8, nested as deep as one way
/// allows, with a variable, a numeral or a redex of a variable at its deepest
/// place.
pub fn deep(random: &mut Random, size: usize) -> Term {
    let way = random.below(7);
    let (per_level, bound) = [
        (1, 1),
        (1, 0),
        (1, 0),
        (2, 0),
        (2, 0),
        (3, MOST_BOUND),
        (2, 0),
    ][way];
    let (redex, numeral) = random.pick(&[(false, false), (true, false), (false, true)]);
    let outside = size - if redex { 4 } else { 1 };
    let (levels, rest) = (outside / per_level, outside % per_level);
    let binders = (levels * bound + rest) as u32;
    let index = random.pick(&[0, binders, binders + LARGEST_FREE]);
    let innermost = match numeral {
        true => num(random.pick(&[0, LARGEST_NUMERAL])),
        false => identities(usize::from(redex), var(index)),
    };
    (0..levels).fold(lambdas(rest, innermost), |term, _| match way {
        0 => abs(term),
        1 => con(1, vec![term]),
        2 => case(term, Vec::new()),
        3 => app(term, var(0)),
        4 => app(var(0), term),
        5 => case(var(0), vec![branch(1, MOST_BOUND as u32, term)]),
        _ => con(2, vec![var(0), term]),
    })
}

/// Two deep terms around the longest workspace's length.
pub fn deep_pair(random: &mut Random) -> (Term, Term) {
    let longest = *WORKSPACE.end();
    let size = random.pick(&[longest - 3, longest - 1, longest]);
    let left = deep(random, size);
    let right = match random.below(3) {
        0 => left.clone(),
        1 => deep(random, size),
        _ => var(0),
    };
    (left, right)
}
