//! Judges of pairs.

use crate::common::flat_position;
use crate::Told;
use reference::default::takes_default;
use reference::generate::inputs::{self, Aim};
use reference::on_large_stack;
use reference::part::contracts_numeral;
use reference::press::{Answer, Verdict};
use reference::random::Random;
use reference::replay::VERDICTS;
use reference::table::load;
use reference::term::{abs, app, branch, case, con, num, var, Branch, Term};
use reference::verdict::{outcome, Outcome, Request};
use reference::words::{read, words};

mistakes! {
    Mistake;
    MISTAKES:
    // The plausible errors that the rules shut out.
    ArgumentNotRaised,
    ArgumentsFirst,
    StopsAtAbstraction,
    BudgetAsDifferent,
    FirstArgumentIsIndex0,
    AnyCountContracts,
    // Others.
    IndicesNotLowered,
    LoweredByOne,
    BoundIndicesRaised,
    RaisedByOnePerBranch,
    BranchesNotReduced,
    ArgumentsNotReduced,
    RightmostFirst,
    FullBeforeBudget,
    FullFromC,
    DifferentBeforeSame,
    OneSideAtATime,
    CountedByRounds,
    // Of numerals.
    NumeralIsNormal,
    NumeralWaits,
    NumeralIsOneMore,
    NumeralAppliesItsArgument,
    NumeralContractsWhenApplied,
    NumeralRises,
    NumeralIsFree,
    NumeralIsItsExpansion,
    NumeralAlwaysFits,
    // Of defaults.
    DefaultForAnotherCount,
    DefaultPreferred,
    DefaultLowered,
    DefaultFilled,
    DefaultForAnySubject,
    DefaultOnlyAlone,
    DefaultNotTaken,
    DefaultIsFree,
    DefaultBodySkipped;
}

/// Steps and rounds written apart from the reference's, with room for one
/// mistake.
struct Judge(Mistake);

impl Judge {
    fn is(&self, mistake: Mistake) -> bool {
        self.0 == mistake
    }

    /// Binders that a branch adds around its body.
    fn bound(&self, branch: &Branch) -> u32 {
        if self.is(Mistake::RaisedByOnePerBranch) {
            branch.bound.min(1)
        } else {
            branch.bound
        }
    }

    /// The term with arguments put in for the binders removed around it,
    /// under `depth` binders of its own; `crossed` is how far they rise.
    fn fill(&self, term: &Term, depth: u32, crossed: u32, args: &[Term]) -> Term {
        let count = args.len() as u32;
        let inside =
            |part: &Term, more, crossing| self.fill(part, depth + more, crossed + crossing, args);
        match term {
            Term::Var(index) if *index < depth => var(*index),
            Term::Var(index) if *index < depth + count => {
                let from_last = (index - depth) as usize;
                let place = if self.is(Mistake::FirstArgumentIsIndex0) {
                    from_last
                } else {
                    args.len() - 1 - from_last
                };
                match (self.0, &args[place]) {
                    (Mistake::ArgumentNotRaised, argument) => argument.clone(),
                    (Mistake::BoundIndicesRaised, argument) => {
                        moved(argument, 0, 0, crossed as i32)
                    }
                    (Mistake::NumeralRises, Term::Num(numeral)) => num(numeral + crossed),
                    (_, argument) => moved(argument, 0, 1, crossed as i32),
                }
            }
            Term::Var(index) if self.is(Mistake::IndicesNotLowered) => var(*index),
            Term::Var(index) if self.is(Mistake::LoweredByOne) => var(index - count.min(1)),
            Term::Var(index) => var(index - count),
            Term::Abs(body) => abs(inside(body, 1, 1)),
            Term::App(f, a) => app(inside(f, 0, 0), inside(a, 0, 0)),
            Term::Con { tag, args } => con(*tag, args.iter().map(|a| inside(a, 0, 0)).collect()),
            Term::Case {
                scrutinee,
                branches,
            } => {
                let arms = branches.iter();
                let arms =
                    arms.map(|b| branch(b.tag, b.bound, inside(&b.body, b.bound, self.bound(b))));
                case(inside(scrutinee, 0, 0), arms.collect())
            }
            Term::Num(numeral) => num(*numeral),
        }
    }

    /// What a numeral contracts to.
    fn entry(&self, numeral: u32) -> Term {
        let times = numeral + u32::from(self.is(Mistake::NumeralIsOneMore));
        let mut body = var(0);
        for _ in 0..times {
            body = match self.0 {
                Mistake::NumeralAppliesItsArgument => app(body, var(1)),
                _ => app(var(1), body),
            };
        }
        abs(abs(body))
    }

    fn contractum(&self, term: &Term) -> Option<Term> {
        match term {
            Term::App(f, a) => match f.as_ref() {
                Term::Abs(body) => Some(self.fill(body, 0, 0, &[a.as_ref().clone()])),
                Term::Num(numeral) if self.is(Mistake::NumeralContractsWhenApplied) => {
                    self.contractum(&app(self.entry(*numeral), a.as_ref().clone()))
                }
                _ => None,
            },
            Term::Num(_) if self.is(Mistake::NumeralIsNormal) => None,
            Term::Num(_) if self.is(Mistake::NumeralWaits) => None,
            Term::Num(numeral) => Some(self.entry(*numeral)),
            Term::Case {
                scrutinee,
                branches,
            } => match scrutinee.as_ref() {
                Term::Con { tag, args } => self.arm_taken(branches, *tag, args),
                Term::Var(_) | Term::Abs(_) | Term::Num(_)
                    if self.is(Mistake::DefaultForAnySubject) =>
                {
                    self.default_taken(branches, &[])
                }
                _ => None,
            },
            _ => None,
        }
    }

    /// What a case of a constructor becomes.
    fn arm_taken(&self, branches: &[Branch], tag: u32, args: &[Term]) -> Option<Term> {
        let default = || self.default_taken(branches, args);
        let Some(arm) = branches.iter().find(|arm| arm.tag == tag) else {
            return default();
        };
        let fits = arm.bound as usize == args.len();
        let any = self.is(Mistake::AnyCountContracts);
        let own = (fits || any).then(|| self.fill(&arm.body, 0, 0, args));
        match self.0 {
            Mistake::DefaultForAnotherCount => own.or_else(default),
            Mistake::DefaultPreferred => default().or(own),
            _ => own,
        }
    }

    /// The body of the default, if there is one.
    fn default_taken(&self, branches: &[Branch], args: &[Term]) -> Option<Term> {
        let first = branches.first().filter(|branch| branch.is_default())?;
        match self.0 {
            Mistake::DefaultNotTaken => None,
            Mistake::DefaultOnlyAlone if branches.len() > 1 => None,
            Mistake::DefaultFilled => Some(self.fill(&first.body, 0, 0, args)),
            Mistake::DefaultLowered => Some(moved(&first.body, 0, 1, -(args.len() as i32))),
            _ => Some(first.body.clone()),
        }
    }

    /// The next term, with numerals last if the judge lets them wait.
    fn next(&self, term: &Term) -> Option<Term> {
        let waiting = || Judge(Mistake::Nothing).step(term);
        match self.0 {
            Mistake::NumeralWaits => self.step(term).or_else(waiting),
            _ => self.step(term),
        }
    }

    /// The next term by the judge's order of places.
    fn step(&self, term: &Term) -> Option<Term> {
        let own = self.contractum(term);
        if self.is(Mistake::ArgumentsFirst) {
            return self.step_part(term).or(own);
        }
        own.or_else(|| self.step_part(term))
    }

    fn step_part(&self, term: &Term) -> Option<Term> {
        let mut places: Vec<usize> = (0..parts(term).len()).collect();
        match term {
            Term::Abs(_) if self.is(Mistake::StopsAtAbstraction) => return None,
            Term::Case { .. } if self.is(Mistake::BranchesNotReduced) => places.truncate(1),
            Term::Case { branches, .. } if self.is(Mistake::DefaultBodySkipped) => {
                places.retain(|place| *place == 0 || !branches[place - 1].is_default());
            }
            Term::Con { .. } if self.is(Mistake::ArgumentsNotReduced) => return None,
            _ => {}
        }
        if self.is(Mistake::RightmostFirst) {
            places.reverse();
        }
        let parts = parts(term);
        places.into_iter().find_map(|place| {
            let next = self.step(parts[place])?;
            let (before, after) = (&parts[..place], &parts[place + 1..]);
            let copies =
                |parts: &[&Term]| -> Vec<Term> { parts.iter().copied().cloned().collect() };
            Some(with_parts(
                term,
                [copies(before), vec![next], copies(after)].concat(),
            ))
        })
    }

    /// The answer, or none where the judge runs on for too long.
    fn judge(&self, mut sides: [Term; 2], capacity: usize, budget: u32) -> Option<Answer> {
        let mut spent = 0;
        for _ in 0..MOST_ROUNDS {
            let next = sides.each_ref().map(|side| self.next(side));
            let end = self.end(&sides, &next, capacity, budget - spent);
            if let Some(verdict) = end {
                return Some(answer(verdict, spent, sides));
            }
            spent += self.cost(&sides, &next);
            for (side, next) in sides.iter_mut().zip(next) {
                let Some(next) = next else { continue };
                *side = next;
                if self.is(Mistake::OneSideAtATime) {
                    break;
                }
            }
        }
        None
    }

    /// The term as it is compared.
    fn expanded(&self, term: &Term) -> Term {
        if !self.is(Mistake::NumeralIsItsExpansion) {
            return term.clone();
        }
        match term {
            Term::Num(numeral) => self.entry(*numeral),
            _ => {
                let parts = parts(term).into_iter().map(|part| self.expanded(part));
                with_parts(term, parts.collect())
            }
        }
    }

    fn cost(&self, sides: &[Term; 2], next: &[Option<Term>; 2]) -> u32 {
        let moving = next.iter().flatten().count() as u32;
        if self.is(Mistake::NumeralIsFree) {
            let numerals = sides.iter().filter(|side| contracts_numeral(side));
            return moving - numerals.count() as u32;
        }
        if self.is(Mistake::DefaultIsFree) {
            let defaults = sides.iter().filter(|side| takes_default(side));
            return moving - defaults.count() as u32;
        }
        let one = self.is(Mistake::CountedByRounds) || self.is(Mistake::OneSideAtATime);
        if one {
            moving.min(1)
        } else {
            moving
        }
    }

    fn end(
        &self,
        sides: &[Term; 2],
        next: &[Option<Term>; 2],
        capacity: usize,
        left: u32,
    ) -> Option<Verdict> {
        let expanded = sides.each_ref().map(|side| self.expanded(side));
        let same = (expanded[0] == expanded[1]).then_some(Verdict::Same);
        let moves = next.iter().any(Option::is_some);
        let normal = (!moves).then_some(Verdict::Different);
        let spent = if self.is(Mistake::BudgetAsDifferent) {
            Verdict::Different
        } else {
            Verdict::Budget
        };
        let budget = (self.cost(sides, next) > left).then_some(spent);
        let most = capacity - usize::from(self.is(Mistake::FullFromC));
        let fits = |side: &Term| self.is(Mistake::NumeralAlwaysFits) && contracts_numeral(side);
        let mut moving = sides.iter().zip(next);
        let long = moving.any(|(side, next)| {
            next.as_ref()
                .is_some_and(|next| next.size() > most && !fits(side))
        });
        let full = long.then_some(Verdict::Full);
        match self.0 {
            Mistake::FullBeforeBudget => same.or(normal).or(full).or(budget),
            Mistake::DifferentBeforeSame => normal.or(same).or(budget).or(full),
            _ => same.or(normal).or(budget).or(full),
        }
    }
}

/// The answer with the forms at the end, which are compared as lists of words.
fn answer(verdict: Verdict, spent: u32, forms: [Term; 2]) -> Answer {
    let [left, right] = forms.map(|form| words(&form));
    let position = match verdict {
        Verdict::Different => flat_position(&left, &right).unwrap_or(0),
        _ => 0,
    };
    let [left, right, position] = [left.len(), right.len(), position].map(|count| count as u32);
    Answer {
        verdict,
        spent,
        left,
        right,
        position,
    }
}

/// Indices from `depth` on moved, down to 0; each binder adds `binder` to the
/// depth.
fn moved(term: &Term, depth: u32, binder: u32, by: i32) -> Term {
    let inside = |part: &Term, binders| moved(part, depth + binder * binders, binder, by);
    match term {
        Term::Var(index) if *index < depth => var(*index),
        Term::Var(index) => var(index.saturating_add_signed(by)),
        Term::Abs(body) => abs(inside(body, 1)),
        Term::App(f, a) => app(inside(f, 0), inside(a, 0)),
        Term::Con { tag, args } => con(*tag, args.iter().map(|a| inside(a, 0)).collect()),
        Term::Case {
            scrutinee,
            branches,
        } => {
            let arms = branches.iter();
            let arms = arms.map(|b| branch(b.tag, b.bound, inside(&b.body, b.bound)));
            case(inside(scrutinee, 0), arms.collect())
        }
        Term::Num(numeral) => num(*numeral),
    }
}

fn parts(term: &Term) -> Vec<&Term> {
    match term {
        Term::Var(_) | Term::Num(_) => vec![],
        Term::Abs(body) => vec![body],
        Term::App(f, a) => vec![f, a],
        Term::Con { args, .. } => args.iter().collect(),
        Term::Case {
            scrutinee,
            branches,
        } => {
            let bodies = branches.iter().map(|branch| &branch.body);
            std::iter::once(scrutinee.as_ref()).chain(bodies).collect()
        }
    }
}

/// The term with other parts in place of its own.
fn with_parts(term: &Term, parts: Vec<Term>) -> Term {
    let mut parts = parts.into_iter();
    let mut next = || parts.next().expect("as many parts as the term has");
    match term {
        Term::Var(index) => var(*index),
        Term::Abs(_) => abs(next()),
        Term::App(..) => app(next(), next()),
        Term::Con { tag, args } => con(*tag, args.iter().map(|_| next()).collect()),
        Term::Case { branches, .. } => {
            let scrutinee = next();
            let arms = branches.iter().map(|b| branch(b.tag, b.bound, next()));
            case(scrutinee, arms.collect())
        }
        Term::Num(numeral) => num(*numeral),
    }
}

/// Longer runs and workspaces than these are left out here.
const MOST_ROUNDS: usize = 300;
const MOST_WORDS: usize = 300;

/// Pairs of the generated inputs that are judged, with the reference's answer.
fn judged() -> Vec<([Term; 2], usize, u32, Answer)> {
    (0..600)
        .filter_map(|case| {
            let verdict = VERDICTS[case % VERDICTS.len()];
            let random = &mut Random::new(4, case as u64);
            let input = inputs::aimed(random, Aim::Verdict(verdict));
            let request = Request::read(&input)?;
            let Outcome::Answered(answer) = outcome(&input) else {
                return None;
            };
            let capacity = request.capacity as usize;
            let terms = [request.left, request.right].map(|table| {
                let mut words = vec![0; capacity];
                let length = load(&table, &mut words).ok()?;
                read(&words[..length as usize])
            });
            let [Some(left), Some(right)] = terms else {
                return None;
            };
            let short = (answer.spent as usize) < MOST_ROUNDS && capacity <= MOST_WORDS;
            short.then_some(([left, right], capacity, request.budget, answer))
        })
        .collect()
}

#[test]
fn inputs_tell_wrong_judges() {
    let told = on_large_stack(|| {
        let mut told = Told::of(MISTAKES);
        let judged = judged();
        assert!(judged.len() > 300, "{}", judged.len());
        for (sides, capacity, budget, answer) in judged {
            told.look(&Some(answer), |mistake| {
                Judge(mistake).judge(sides.clone(), capacity, budget)
            });
        }
        told
    });
    told.assert_all(6);
}
