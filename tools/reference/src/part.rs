//! The parts that numerals have in answers. Where a refusal may have other
//! causes, the call is made once more with the numerals mended.

use crate::contraction::{contractum, step};
use crate::generate::terms::subterms;
use crate::press::{term_in, Answer, Side, Verdict};
use crate::refusal::Refusal;
use crate::replay::{Event, Machine, Operation};
use crate::table::RECORD;
use crate::term::{Term, LARGEST_NUMERAL};
use crate::verdict;
use crate::words::{kind, kind_of, payload_of, word};
use std::fmt;

/// What a numeral has to do with a call and its answer.
#[derive(Clone, Copy, Debug, PartialEq, Eq)]
pub enum Part {
    /// A loaded table has one.
    Loaded,
    /// A table is refused by nothing but the values of numerals.
    Value,
    /// A table is refused by nothing but the children of numerals.
    Children,
    /// One is contracted in the rounds of a press.
    Contracted,
    /// The rounds end since contracted numerals would be too long.
    Full,
    /// A press is refused by nothing but the payloads of numerals.
    PressPayload,
    /// The form that is shown has one.
    Shown,
    /// Showing is refused by nothing but the payloads of numerals.
    ShowPayload,
    /// A written term has one.
    Written,
    /// Writing is refused by nothing but the payloads of numerals.
    WritePayload,
}

impl fmt::Display for Part {
    fn fmt(&self, f: &mut fmt::Formatter<'_>) -> fmt::Result {
        f.write_str(match self {
            Part::Loaded => "load of a numeral",
            Part::Value => "load refused 3 by a numeral",
            Part::Children => "load refused 5 by a numeral",
            Part::Contracted => "press contracts a numeral",
            Part::Full => "press Full by a numeral",
            Part::PressPayload => "press refused 10 by a numeral",
            Part::Shown => "show of a numeral",
            Part::ShowPayload => "show refused by a numeral",
            Part::Written => "write of a numeral",
            Part::WritePayload => "write refused 10 by a numeral",
        })
    }
}

/// The parts of numerals in what the verdict program does with an input.
pub fn of_input(input: &[u8]) -> Vec<Part> {
    let mut parts = Vec::new();
    verdict::watch(input, |before, operation| {
        parts.extend(of_call(before, operation));
    });
    parts
}

/// The parts of numerals in one call of a script.
pub fn of_call(before: &Machine, operation: &Operation) -> Vec<Part> {
    if !has_numeral(before, operation) {
        return Vec::new();
    }
    let event = made(before, operation);
    let mended = || mended_payloads(before, operation) != event;
    let part = match (operation, event) {
        (Operation::Load { side, table }, Event::Load(answer)) => {
            of_load(before, *side, table, answer)
        }
        (Operation::Press { lengths, .. }, Event::Press(Ok(answer))) => {
            return of_rounds(before, *lengths, answer);
        }
        (_, Event::Press(Err(Refusal::NotATerm))) => mended().then_some(Part::PressPayload),
        (_, Event::Show(Some((side, length)))) => {
            stands_in(workspace(before, side), length as u32).then_some(Part::Shown)
        }
        (_, Event::Show(None)) => mended().then_some(Part::ShowPayload),
        (_, Event::Write(Ok(_))) => Some(Part::Written),
        (_, Event::Write(Err(Refusal::NotATerm))) => mended().then_some(Part::WritePayload),
        _ => None,
    };
    part.into_iter().collect()
}

/// The part of numerals in a table that is loaded or refused.
fn of_load(
    before: &Machine,
    side: Side,
    table: &[u32],
    answer: Result<u32, Refusal>,
) -> Option<Part> {
    let (mend, part): (fn(&mut [u32]), Part) = match answer {
        Ok(_) => return Some(Part::Loaded),
        Err(Refusal::Value) => (mend_value, Part::Value),
        Err(Refusal::Structure) => (mend_children, Part::Children),
        Err(_) => return None,
    };
    let mut table = table.to_vec();
    let records = table.chunks_exact_mut(RECORD).skip(1);
    records
        .filter(|record| record[0] == kind::NUMERAL)
        .for_each(mend);
    let mended = made(before, &Operation::Load { side, table });
    (mended != Event::Load(answer)).then_some(part)
}

/// What comes of a call.
pub fn made(before: &Machine, operation: &Operation) -> Event {
    before.clone().apply(operation, &mut String::new())
}

pub fn workspace(machine: &Machine, side: Side) -> &[u32] {
    match side {
        Side::Left => &machine.left,
        Side::Right => &machine.right,
    }
}

/// Whether the call reads a numeral at all.
fn has_numeral(before: &Machine, operation: &Operation) -> bool {
    match operation {
        Operation::Load { table, .. } => {
            let mut records = table.chunks_exact(RECORD).skip(1);
            records.any(|record| record[0] == kind::NUMERAL)
        }
        Operation::Press { lengths, .. } | Operation::Show { lengths } => {
            stands_in(&before.left, lengths.0) || stands_in(&before.right, lengths.1)
        }
        Operation::Write { side, length, .. } => stands_in(workspace(before, *side), *length),
        _ => false,
    }
}

/// Whether a numeral is among the first words of a workspace.
fn stands_in(workspace: &[u32], length: u32) -> bool {
    let mut words = workspace.iter().take(length as usize);
    words.any(|word| kind_of(*word) == kind::NUMERAL)
}

fn mend_value(record: &mut [u32]) {
    record[1] = record[1].min(LARGEST_NUMERAL);
}

/// Makes a numeral with children a constructor, which may have some.
fn mend_children(record: &mut [u32]) {
    if record[2] != 0 {
        record[..2].copy_from_slice(&[kind::CONSTRUCTOR, 1]);
    }
}

/// What comes of the call once no payload is too large. Rounds are of no
/// interest here, and a press makes none.
fn mended_payloads(before: &Machine, operation: &Operation) -> Event {
    let mut machine = before.clone();
    for stored in machine.left.iter_mut().chain(&mut machine.right) {
        if kind_of(*stored) == kind::NUMERAL {
            *stored = word(kind::NUMERAL, payload_of(*stored).min(LARGEST_NUMERAL));
        }
    }
    let mut operation = operation.clone();
    if let Operation::Press { budget, .. } = &mut operation {
        *budget = 0;
    }
    made(&machine, &operation)
}

/// The parts of numerals in the rounds that an answer tells of.
fn of_rounds(before: &Machine, lengths: (u32, u32), answer: Answer) -> Vec<Part> {
    let Some((sides, contracted)) = rounds_again(before, lengths, answer, contracts_numeral) else {
        return Vec::new();
    };
    let is_long = |side: &&Term| step(side).is_some_and(|next| next.size() > before.left.len());
    let full =
        answer.verdict == Verdict::Full && sides.iter().filter(is_long).all(contracts_numeral);
    let parts = [(contracted, Part::Contracted), (full, Part::Full)];
    let parts = parts.into_iter().filter(|(met, _)| *met);
    parts.map(|(_, part)| part).collect()
}

/// The forms after the rounds that an answer tells of, and whether one of the
/// terms that are contracted in them meets a condition.
pub fn rounds_again(
    before: &Machine,
    lengths: (u32, u32),
    answer: Answer,
    meets: fn(&Term) -> bool,
) -> Option<([Term; 2], bool)> {
    let left = term_in(&before.left, lengths.0).ok()?;
    let right = term_in(&before.right, lengths.1).ok()?;
    let mut sides = [left, right];
    let (mut made, mut met) = (0, false);
    while made < answer.spent {
        for side in &mut sides {
            if let Some(next) = step(side) {
                met = met || meets(side);
                *side = next;
                made += 1;
            }
        }
    }
    Some((sides, met))
}

/// The leftmost outermost redex.
pub fn first_redex(term: &Term) -> Option<&Term> {
    let mut parts = subterms(term).into_iter().map(|(part, _)| part);
    parts.find(|part| contractum(part).is_some())
}

/// Whether the leftmost outermost redex is a numeral.
pub fn contracts_numeral(term: &Term) -> bool {
    matches!(first_redex(term), Some(Term::Num(_)))
}
