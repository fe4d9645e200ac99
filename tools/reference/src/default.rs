//! What default branches have to do with answers. Where a refusal may have
//! other causes, the call is made once more with its fault mended.

use crate::generate::terms::subterms;
use crate::part::{first_redex, made, rounds_again, workspace};
use crate::press::{Answer, Side, Verdict};
use crate::refusal::Refusal;
use crate::replay::{Event, Machine, Operation};
use crate::table::RECORD;
use crate::term::{Branch, Term};
use crate::verdict;
use crate::words::{kind, kind_of, payload_of, word, COUNTS};
use std::fmt;

/// What is wrong about tag 0.
#[derive(Clone, Copy, Debug, PartialEq, Eq)]
pub enum Fault {
    /// A branch has it and binds something.
    Binds,
    /// A constructor has it.
    Constructor,
    /// A default is not the first branch.
    Place,
}

pub const FAULTS: [Fault; 3] = [Fault::Binds, Fault::Constructor, Fault::Place];

/// The part of a default or of tag 0 in a call and its answer.
#[derive(Clone, Copy, Debug, PartialEq, Eq)]
pub enum Role {
    /// A loaded table has a default.
    Loaded,
    /// A table is refused by nothing but the fault.
    Load(Fault),
    /// A default is taken in the rounds of a press with this verdict.
    Taken(Verdict),
    /// A press ends in Different where a default stands beside a branch of the
    /// subject's tag, which binds another count.
    AnotherCount,
    /// A press ends in Different where the subject before a default is no
    /// constructor.
    NoConstructor,
    /// A press is refused by nothing but the fault.
    Press(Fault),
    /// The form that is shown has a default.
    Shown,
    /// A written term has a default.
    Written,
}

impl fmt::Display for Fault {
    fn fmt(&self, f: &mut fmt::Formatter<'_>) -> fmt::Result {
        f.write_str(match self {
            Fault::Binds => "a branch of tag 0 that binds",
            Fault::Constructor => "a constructor of tag 0",
            Fault::Place => "the place of a default",
        })
    }
}

impl fmt::Display for Role {
    fn fmt(&self, f: &mut fmt::Formatter<'_>) -> fmt::Result {
        match self {
            Role::Loaded => write!(f, "load of a default"),
            Role::Load(fault @ Fault::Place) => write!(f, "load refused 5 by {fault}"),
            Role::Load(fault) => write!(f, "load refused 3 by {fault}"),
            Role::Taken(verdict) => write!(f, "press {verdict} with a default taken"),
            Role::AnotherCount => write!(f, "press Different with a default and another count"),
            Role::NoConstructor => write!(f, "press Different with a default and no constructor"),
            Role::Press(fault) => write!(f, "press refused 10 by {fault}"),
            Role::Shown => write!(f, "show of a default"),
            Role::Written => write!(f, "write of a default"),
        }
    }
}

/// The parts of defaults in what the verdict program does with an input.
pub fn of_input(input: &[u8]) -> Vec<Role> {
    let mut roles = Vec::new();
    verdict::watch(input, |before, operation| {
        roles.extend(of_call(before, operation));
    });
    roles
}

/// The parts of defaults in one call of a script.
pub fn of_call(before: &Machine, operation: &Operation) -> Vec<Role> {
    let stands_in = |side, length| has_default(workspace(before, side), length);
    match (operation, made(before, operation)) {
        (Operation::Load { side, table }, Event::Load(answer)) => {
            of_load(before, *side, table, answer)
        }
        (Operation::Press { lengths, .. }, Event::Press(Ok(answer))) => {
            match stands_in(Side::Left, lengths.0) || stands_in(Side::Right, lengths.1) {
                true => of_rounds(before, *lengths, answer),
                false => Vec::new(),
            }
        }
        (Operation::Press { lengths, .. }, Event::Press(Err(Refusal::NotATerm))) => {
            let is_met = |fault: &Fault| is_mended(before, *lengths, *fault);
            let faults = FAULTS.into_iter().filter(is_met);
            faults.map(Role::Press).collect()
        }
        (_, Event::Show(Some((side, length)))) if stands_in(side, length as u32) => {
            vec![Role::Shown]
        }
        (Operation::Write { side, length, .. }, Event::Write(Ok(_)))
            if stands_in(*side, *length) =>
        {
            vec![Role::Written]
        }
        _ => Vec::new(),
    }
}

/// The word of a default.
const DEFAULT: u32 = kind::BRANCH;

/// Whether a default is among the first words of a workspace.
fn has_default(workspace: &[u32], length: u32) -> bool {
    workspace
        .iter()
        .take(length as usize)
        .any(|word| *word == DEFAULT)
}

/// The part of a default in a table that is loaded or refused.
fn of_load(before: &Machine, side: Side, table: &[u32], answer: Result<u32, Refusal>) -> Vec<Role> {
    let faults = match answer {
        Ok(_) => {
            let mut records = table.chunks_exact(RECORD).skip(1);
            let found = records.any(|record| record[..2] == [kind::BRANCH, 0]);
            return found.then_some(Role::Loaded).into_iter().collect();
        }
        Err(Refusal::Value) => &FAULTS[..2],
        Err(Refusal::Structure) => &FAULTS[2..],
        Err(_) => &[],
    };
    let is_met = |fault: &&Fault| {
        let mut table = table.to_vec();
        mend_table(&mut table, **fault);
        made(before, &Operation::Load { side, table }) != Event::Load(answer)
    };
    let faults = faults.iter().filter(is_met);
    faults.map(|fault| Role::Load(*fault)).collect()
}

/// Takes the fault away from a table, whose links are right if the fault is
/// the place of a default.
fn mend_table(table: &mut [u32], fault: Fault) {
    let records = table.len() / RECORD;
    for own in (1..records).map(|index| RECORD * index) {
        match (fault, table[own], table[own + 1]) {
            (Fault::Binds, kind::BRANCH, 1..COUNTS) => table[own + 1] = 0,
            (Fault::Constructor, kind::CONSTRUCTOR, 0) => table[own + 1] = 1,
            (Fault::Place, kind::CASE, _) => {
                let next = |at: &usize| Some(RECORD * table[at + 3] as usize);
                let chain = std::iter::successors(Some(RECORD * table[own + 2] as usize), next);
                let chain: Vec<usize> = chain.take_while(|at| *at > 0).skip(1).collect();
                let values = chain.iter().map(|at| table[at + 1]).collect();
                for (at, value) in chain.into_iter().zip(raised(values)) {
                    table[at + 1] = value;
                }
            }
            _ => {}
        }
    }
}

/// The values of a case's branches, with the tags 1, 2, 3.. in place of their
/// own if a default is not the first.
fn raised(values: Vec<u32>) -> Vec<u32> {
    if !values.iter().skip(1).any(|value| *value == 0) {
        return values;
    }
    let tagged = (1..).zip(values);
    tagged
        .map(|(tag, value)| tag * COUNTS + value % COUNTS)
        .collect()
}

/// Whether a press on words that are no term would be another one without the
/// fault. It makes no round.
fn is_mended(before: &Machine, lengths: (u32, u32), fault: Fault) -> bool {
    let mut machine = before.clone();
    let sides = [
        (&mut machine.left, lengths.0),
        (&mut machine.right, lengths.1),
    ];
    for (workspace, length) in sides {
        if let Some(words) = workspace.get_mut(..length as usize) {
            mend_words(words, fault);
        }
    }
    let press = Operation::Press {
        scratch: machine.left.len(),
        lengths,
        budget: 0,
    };
    machine != *before && matches!(made(&machine, &press), Event::Press(Ok(_)))
}

/// Takes the fault away from words.
fn mend_words(words: &mut [u32], fault: Fault) {
    for own in 0..words.len() {
        let (kind, payload) = (kind_of(words[own]), payload_of(words[own]));
        match (fault, kind, payload) {
            (Fault::Binds, kind::BRANCH, 1..COUNTS) => words[own] = DEFAULT,
            (Fault::Constructor, kind::CONSTRUCTOR, 0..COUNTS) => {
                words[own] = word(kind, COUNTS + payload);
            }
            (Fault::Place, kind::CASE, count) => {
                let next = |at: &usize| Some(after(words, *at));
                let chain = std::iter::successors(Some(after(words, own + 1)), next);
                let is_branch = |at: &usize| {
                    let word = words.get(*at);
                    word.is_some_and(|word| kind_of(*word) == kind::BRANCH)
                };
                let chain: Vec<usize> = chain.take(count as usize).take_while(is_branch).collect();
                let values = chain.iter().map(|at| payload_of(words[*at])).collect();
                for (at, value) in chain.into_iter().zip(raised(values)) {
                    words[at] = word(kind::BRANCH, value);
                }
            }
            _ => {}
        }
    }
}

/// The place behind the term or branch that starts at `at`, by the counts in
/// its words.
fn after(words: &[u32], mut at: usize) -> usize {
    let mut due = 1;
    while due > 0 && at < words.len() {
        let payload = payload_of(words[at]);
        due += match kind_of(words[at]) {
            kind::ABSTRACTION | kind::BRANCH => 1,
            kind::APPLICATION => 2,
            kind::CONSTRUCTOR => payload % COUNTS,
            kind::CASE => payload.min(COUNTS) + 1,
            _ => 0,
        };
        due -= 1;
        at += 1;
    }
    at
}

/// The parts of defaults in the rounds that an answer tells of.
fn of_rounds(before: &Machine, lengths: (u32, u32), answer: Answer) -> Vec<Role> {
    let Some((sides, taken)) = rounds_again(before, lengths, answer, takes_default) else {
        return Vec::new();
    };
    let stands = |stuck: fn(&Term, &[Branch]) -> bool| {
        let different = answer.verdict == Verdict::Different;
        different && sides.iter().any(|side| has_case(side, stuck))
    };
    let roles = [
        (taken, Role::Taken(answer.verdict)),
        (stands(another_count), Role::AnotherCount),
        (stands(no_constructor), Role::NoConstructor),
    ];
    let roles = roles.into_iter().filter(|(met, _)| *met);
    roles.map(|(_, role)| role).collect()
}

/// Whether the leftmost outermost redex is a case that takes its default.
pub fn takes_default(term: &Term) -> bool {
    match first_redex(term) {
        Some(Term::Case {
            scrutinee,
            branches,
        }) => listed(scrutinee, branches).is_none(),
        _ => false,
    }
}

/// Whether some case with a default, by its subject and branches, is as asked.
fn has_case(term: &Term, asked: fn(&Term, &[Branch]) -> bool) -> bool {
    subterms(term).into_iter().any(|(part, _)| match part {
        Term::Case {
            scrutinee,
            branches,
        } => branches.iter().any(Branch::is_default) && asked(scrutinee, branches),
        _ => false,
    })
}

/// The branch of the subject's tag, if the subject is a constructor.
fn listed<'a>(subject: &Term, branches: &'a [Branch]) -> Option<&'a Branch> {
    match subject {
        Term::Con { tag, .. } => branches.iter().find(|branch| branch.tag == *tag),
        _ => None,
    }
}

/// Whether a normal case is stuck by the count of a listed tag.
fn another_count(subject: &Term, branches: &[Branch]) -> bool {
    listed(subject, branches).is_some()
}

fn no_constructor(subject: &Term, _: &[Branch]) -> bool {
    !matches!(subject, Term::Con { .. })
}
