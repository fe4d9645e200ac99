//! Pairs of accepted terms, with budgets and workspace lengths around what
//! their rounds need.

use crate::contraction::{shift, step};
use crate::generate::families::{self, identities};
use crate::generate::lines::is_plain;
use crate::generate::near;
use crate::generate::terms::{numeral, replace, size, subterms, term, variable, Style};
use crate::press::{Verdict, LARGEST_BUDGET};
use crate::random::Random;
use crate::term::{
    abs, app, branch, case, con, default, var, Term, MOST_ARGUMENTS, MOST_BOUND, WORKSPACE,
};

/// Two terms, a budget and a workspace length that holds both.
#[derive(Clone, Debug)]
pub struct Trial {
    pub left: Term,
    pub right: Term,
    pub budget: u32,
    pub capacity: usize,
}

/// A trial that is likely to give the verdict wished for, or any.
pub fn trial(random: &mut Random, wish: Option<Verdict>) -> Trial {
    match wish {
        Some(Verdict::Different) if random.percent(70) => near_trial(random),
        _ => trial_of(random, wish, pair),
    }
}

/// A trial in workspaces of this length.
pub fn trial_in(random: &mut Random, capacity: usize) -> Trial {
    loop {
        let trial = trial(random, None);
        if trial.left.size().max(trial.right.size()) <= capacity {
            return Trial { capacity, ..trial };
        }
    }
}

/// A trial that gives Different, most often behind equal words.
pub fn near_trial(random: &mut Random) -> Trial {
    trial_of(random, Some(Verdict::Different), near::pair)
}

/// A trial for any wish on a pair in which numerals have the main part.
pub fn numeral_trial(random: &mut Random, wish: Option<Verdict>) -> Trial {
    trial_of(random, wish, families::numerals)
}

/// A trial for any wish on a pair in which defaults are taken.
pub fn default_trial(random: &mut Random, wish: Option<Verdict>) -> Trial {
    trial_of(random, wish, families::taken_default)
}

/// A trial that gives Different on a pair with a default that is stuck.
pub fn stuck_trial(random: &mut Random) -> Trial {
    trial_of(random, Some(Verdict::Different), families::stuck_default)
}

/// A trial for any wish on a pair of variables, abstractions and applications.
pub fn plain_trial(random: &mut Random, wish: Option<Verdict>) -> Trial {
    trial_of(random, wish, |random| loop {
        let (left, right) = pair(random);
        if is_plain(&left) && is_plain(&right) {
            return (left, right);
        }
    })
}

fn trial_of(
    random: &mut Random,
    wish: Option<Verdict>,
    pair: fn(&mut Random) -> (Term, Term),
) -> Trial {
    let (left, right, survey) = loop {
        let (left, right) = pair(random);
        let survey = survey(&left, &right);
        if wish.is_none_or(|verdict| survey.allows(verdict)) {
            break (left, right, survey);
        }
    };
    let (budget, capacity) = match wish {
        Some(Verdict::Same | Verdict::Different) => survey.whole(random),
        Some(Verdict::Budget) => survey.short_of_budget(random),
        Some(Verdict::Full) => survey.short_of_room(random),
        None => survey.any(random),
    };
    let start = left.size().max(right.size()).max(*WORKSPACE.start());
    Trial {
        left,
        right,
        budget,
        capacity: capacity.clamp(start, *WORKSPACE.end()),
    }
}

/// A loop that uses up the largest budgets.
pub fn long_run(random: &mut Random) -> Trial {
    Trial {
        left: families::omega(),
        right: var(0),
        budget: LARGEST_BUDGET - random.below(2) as u32,
        capacity: *WORKSPACE.start(),
    }
}

/// What rounds without limits need, followed for a while.
struct Survey {
    /// Same or Different, if the last state is one.
    end: Option<Verdict>,
    /// Before each round: the contractions made and the longest term so far.
    states: Vec<(u32, usize)>,
}

/// Rounds and words that a survey goes through at most.
const MOST_ROUNDS: usize = 300;
const MOST_WORDS: usize = 30_000;

fn survey(left: &Term, right: &Term) -> Survey {
    let mut sides = [left.clone(), right.clone()];
    let (mut spent, mut longest, mut words) = (0, 0, 0);
    let mut states = Vec::new();
    loop {
        let sizes = sides.each_ref().map(Term::size);
        longest = sizes[0].max(sizes[1]).max(longest);
        states.push((spent, longest));
        words += sizes[0] + sizes[1];
        let next = sides.each_ref().map(step);
        let moving = next.iter().flatten().count();
        let end = match sides[0] == sides[1] {
            true => Some(Verdict::Same),
            false => (moving == 0).then_some(Verdict::Different),
        };
        let enough = words > MOST_WORDS || states.len() > MOST_ROUNDS;
        if end.is_some() || enough || longest > *WORKSPACE.end() {
            return Survey { end, states };
        }
        spent += moving as u32;
        for (side, next) in sides.iter_mut().zip(next) {
            if let Some(next) = next {
                *side = next;
            }
        }
    }
}

impl Survey {
    fn last(&self) -> (u32, usize) {
        self.states[self.states.len() - 1]
    }

    /// Whether some budget and length give the verdict.
    fn allows(&self, verdict: Verdict) -> bool {
        match verdict {
            Verdict::Budget => self.states.len() > 1,
            Verdict::Full => !self.growing().is_empty(),
            verdict => self.end == Some(verdict) && self.last().1 <= *WORKSPACE.end(),
        }
    }

    /// The rounds that need a longer workspace than the states before.
    fn growing(&self) -> Vec<usize> {
        let grows = |i: &usize| self.states[*i + 1].1 > self.states[*i].1.max(*WORKSPACE.start());
        (0..self.states.len() - 1).filter(grows).collect()
    }

    /// The largest budget that is surely soon spent or not needed.
    fn ample(&self) -> u32 {
        if self.end.is_some() {
            LARGEST_BUDGET
        } else {
            2 * self.last().0
        }
    }

    /// A budget and a length that are just enough for all states, or more.
    fn whole(&self, random: &mut Random) -> (u32, usize) {
        let (spent, longest) = self.last();
        let budget = random.pick(&[spent, spent, spent + 1, self.ample()]);
        let room = longest + random.below(100);
        (
            budget,
            random.pick(&[longest, longest, room, *WORKSPACE.end()]),
        )
    }

    /// A budget that ends before some round, and a length for which this
    /// round may be too long as well.
    fn short_of_budget(&self, random: &mut Random) -> (u32, usize) {
        let growing = self.growing();
        let both = !growing.is_empty() && random.percent(40);
        let round = if both {
            random.pick(&growing)
        } else {
            random.below(self.states.len())
        };
        let (spent, longest) = self.states[round];
        let after = self.states.get(round + 1).map_or(spent, |state| state.0);
        let budget = random.pick(&[spent, spent, after.saturating_sub(1)]);
        if both {
            return (budget, longest);
        }
        (
            budget,
            random.pick(&[longest, self.last().1, *WORKSPACE.end()]),
        )
    }

    /// A length that ends before some round, and a budget for which this
    /// round may be the last.
    fn short_of_room(&self, random: &mut Random) -> (u32, usize) {
        let growing = self.growing();
        let any = random.pick(&growing);
        let round = random.pick(&[growing[0], any]);
        let (least, after) = (self.states[round].1, self.states[round + 1]);
        let any = random.between(least, after.1 - 1);
        let room = random.pick(&[least, any, after.1 - 1]);
        let budget = random.pick(&[after.0, after.0, self.last().0, self.ample()]);
        (budget, room)
    }

    /// Any budget and length.
    fn any(&self, random: &mut Random) -> (u32, usize) {
        let state = random.pick(&self.states);
        let (spent, longest) = self.last();
        let budget = random.pick(&[0, 1, state.0, spent, spent + 1, self.ample()]);
        let room = random.below(*WORKSPACE.end());
        (budget, random.pick(&[state.1, longest, longest + 1, room]))
    }
}

/// A pair of accepted terms that fit the longest workspace.
pub fn pair(random: &mut Random) -> (Term, Term) {
    let (left, right) = match random.below(29) {
        0..=5 => families::pair(random),
        6 => families::deep_pair(random),
        7..=12 => substitution(random),
        13..=18 => near::pair(random),
        19..=21 => families::defaults(random),
        _ => {
            let style = Style::random(random);
            let size = size(random);
            let left = term(random, size, 0, style);
            let right = relative(random, &left, style);
            (left, right)
        }
    };
    let fits = |term: &Term| term.size() <= *WORKSPACE.end() && term.frees_fit();
    if !fits(&left) || !fits(&right) {
        return pair(random);
    }
    if random.percent(30) {
        (right, left)
    } else {
        (left, right)
    }
}

/// A term with a redex in it that puts open arguments under binders and
/// into branches, against the term that it contracts to or a change of that.
fn substitution(random: &mut Random) -> (Term, Term) {
    let data = random.pick(&[20, 50, 80]);
    let numerals = random.pick(&[0, 0, 0, 20]);
    let defaults = random.pick(&[0, 0, 20, 50]);
    let style = |free| Style {
        redexes: 0,
        data,
        free,
        numerals,
        defaults,
        aim: None,
    };
    let size = random.between(1, 20);
    let context = term(random, size, 0, style(20));
    let parts = subterms(&context);
    let place = random.below(parts.len());
    let redex = redex(random, parts[place].1, style(50));
    let left = replace(&context, place, &redex);
    let right = reached(random, &left);
    if random.percent(80) {
        (left, right)
    } else {
        let changed = changed(random, &right, style(50));
        (left, changed)
    }
}

/// A redex under `binders` binders, with the removed ones often named.
fn redex(random: &mut Random, binders: u32, style: Style) -> Term {
    let beta = random.percent(40);
    let count = if beta {
        1
    } else {
        random.pick(&[0, 1, 2, 2, 3, 4, MOST_ARGUMENTS as u32])
    };
    let args: Vec<Term> = (0..count)
        .map(|_| {
            let size = random.between(1, 5);
            term(random, size, binders, style)
        })
        .collect();
    if !beta && random.percent(style.defaults) {
        return default_redex(random, args, binders, style);
    }
    let aim = (count > 0).then_some((binders, count));
    let body = redex_body(random, binders + count, Style { aim, ..style });
    if beta {
        return families::apply(abs(body), args);
    }
    // Now and then the branch binds another number, which makes it stuck.
    let bound = (count + u32::from(random.percent(10))).min(MOST_BOUND as u32);
    case(con(2, args), vec![branch(2, bound, body)])
}

/// A case that takes its default, whose body stands under no further binder.
/// Now and then a branch of the tag binds another number, which makes it stuck.
fn default_redex(random: &mut Random, args: Vec<Term>, binders: u32, style: Style) -> Term {
    let body = redex_body(random, binders, style);
    let count = args.len() as u32;
    let tag = random.pick(&[1, 2, 2, 2]);
    let other = branch(1, (count + 1) % (MOST_BOUND as u32 + 1), var(0));
    case(con(tag, args), vec![default(body), other])
}

/// Any term, or a case of one whose branch binds several variables.
fn redex_body(random: &mut Random, binders: u32, style: Style) -> Term {
    let size = random.between(1, 20);
    let bound = random.pick(&[0, 0, 2, 3, MOST_BOUND as u32]);
    if bound == 0 {
        return term(random, size, binders, style);
    }
    let scrutinee = variable(random, binders, style);
    let body = term(random, size, binders + bound, style);
    case(scrutinee, vec![branch(1, bound, body)])
}

/// A term for the other side: equal, reached, expanded, changed or any.
fn relative(random: &mut Random, term: &Term, style: Style) -> Term {
    match random.below(8) {
        0 => term.clone(),
        1 | 2 => reached(random, term),
        3 | 4 => expanded(random, term, style),
        5 | 6 => changed(random, term, style),
        _ => {
            let size = size(random);
            self::term(random, size, 0, style)
        }
    }
}

/// The term after a few contractions.
fn reached(random: &mut Random, term: &Term) -> Term {
    let most = random.between(1, 6);
    let chain = std::iter::successors(Some(term.clone()), step)
        .take_while(|term| term.size() <= *WORKSPACE.end());
    chain.take(most + 1).last().unwrap_or_else(|| term.clone())
}

/// The term with a part replaced by one that contracts to it.
pub fn expanded(random: &mut Random, term: &Term, style: Style) -> Term {
    let parts = subterms(term);
    let place = random.below(parts.len());
    let (part, binders) = parts[place];
    let spare = self::term(random, 1, binders, style);
    let part = part.clone();
    let redex = match random.below(7) {
        0 => identities(random.between(1, 3), part),
        1 | 2 => case(
            con(3, vec![spare]),
            vec![default(part), branch(2, 1, var(0))],
        ),
        3 => app(abs(shift(&part, 1)), spare),
        4 => case(con(2, vec![spare, part]), vec![branch(2, 2, var(0))]),
        5 => case(
            con(1, Vec::new()),
            vec![branch(1, 0, part), branch(4, 0, spare)],
        ),
        _ => {
            let (function, argument) = named(random, &part);
            app(function, argument)
        }
    };
    replace(term, place, &redex)
}

/// A function, and a part of the term under no binder of it: applied to the
/// part, the function contracts to the term.
pub fn named(random: &mut Random, term: &Term) -> (Term, Term) {
    let parts = subterms(term);
    let open: Vec<usize> = (0..parts.len()).filter(|i| parts[*i].1 == 0).collect();
    let place = random.pick(&open);
    let body = replace(&shift(term, 1), place, &var(0));
    (abs(body), parts[place].0.clone())
}

/// The term with one of its variables, constants or numerals replaced.
fn changed(random: &mut Random, term: &Term, style: Style) -> Term {
    let parts = subterms(term);
    let leaves: Vec<usize> = (0..parts.len())
        .filter(|i| parts[*i].0.size() == 1)
        .collect();
    let place = random.pick(&leaves);
    let new = match parts[place].0 {
        Term::Num(_) if random.percent(70) => numeral(random),
        _ => variable(random, parts[place].1, style),
    };
    replace(term, place, &new)
}
