//! Judges that answer or print a wrong position.

use crate::common::flat_position;
use crate::Told;
use reference::default::Role;
use reference::generate::inputs::{self, Aim};
use reference::generate::scripts;
use reference::on_large_stack;
use reference::press::{Answer, Verdict};
use reference::replay::{run_watched, Event, Machine, Operation};
use reference::verdict;

mistakes! {
    Mistake;
    // Mistakes that the lines of both programs show.
    OF_BOTH:
    Largest,
    OfTheTermsBefore,
    FromOne,
    FromTheEnd,
    AlwaysZero,
    LengthOfTheShorter,
    LastOfTheShorter,
    NotTheLastOfTheShorter,
    EqualLengthsOnly,
    OfTheKinds,
    OfThePayloads,
    WithoutBranches,
    InBytes,
    InOneByte;
    OF_VERDICT:
    PrintedWithEveryVerdict,
    NotPrinted,
    PrintedUnlessZero;
    OF_REPLAY:
    LeftWithBudget,
    LeftWithFull,
    OfTheTermsBeforeSame,
    KeptFromTheLastPress,
    MissingOnLines,
    MissingUnlessDifferent,
    PrintedBeforeTheLengths;
}

/// What a press is made on and what it leaves.
struct Press {
    /// The words of both terms before it.
    before: [Vec<u32>; 2],
    /// The words of both forms at its end.
    after: [Vec<u32>; 2],
    answer: Answer,
    /// What the replaying program prints about it.
    line: String,
}

impl Press {
    fn of(before: &Machine, operation: &Operation) -> Option<Self> {
        let Operation::Press { lengths, .. } = operation else {
            return None;
        };
        let (mut after, mut line) = (before.clone(), String::new());
        let Event::Press(Ok(answer)) = after.apply(operation, &mut line) else {
            return None;
        };
        Some(Press {
            before: forms(before, *lengths),
            after: forms(&after, (answer.left, answer.right)),
            answer,
            line,
        })
    }
}

fn forms(machine: &Machine, lengths: (u32, u32)) -> [Vec<u32>; 2] {
    let words = |workspace: &[u32], length: u32| workspace[..length as usize].to_vec();
    [
        words(&machine.left, lengths.0),
        words(&machine.right, lengths.1),
    ]
}

/// The position that a judge answers; the press before answered `last`.
fn position(mistake: Mistake, press: &Press, last: u32) -> u32 {
    let [left, right] = &press.after;
    let current = flat_position(left, right).unwrap_or(0);
    let before = flat_position(&press.before[0], &press.before[1]).unwrap_or(0);
    let position = match (press.answer.verdict, mistake) {
        (Verdict::Different, _) => of_different(mistake, left, right, before),
        (Verdict::Budget, Mistake::LeftWithBudget) => current,
        (Verdict::Full, Mistake::LeftWithFull) => current,
        (Verdict::Same, Mistake::OfTheTermsBeforeSame) => before,
        (_, Mistake::KeptFromTheLastPress) => last as usize,
        _ => 0,
    };
    position as u32
}

/// The position with Different; the terms before the press differ at `before`.
fn of_different(mistake: Mistake, left: &[u32], right: &[u32], before: usize) -> usize {
    let shorter = left.len().min(right.len());
    let first = |differs: &dyn Fn(usize) -> bool| (0..shorter).find(|at| differs(*at));
    let right_one = first(&|at| left[at] != right[at]).unwrap_or(shorter);
    match mistake {
        Mistake::Largest => (0..shorter).rfind(|at| left[*at] != right[*at]),
        Mistake::OfTheTermsBefore => Some(before),
        Mistake::FromOne => Some(right_one + 1),
        Mistake::FromTheEnd => Some(left.len() - 1 - right_one),
        Mistake::AlwaysZero => None,
        Mistake::LengthOfTheShorter => Some(shorter),
        Mistake::LastOfTheShorter => Some(shorter - 1),
        Mistake::NotTheLastOfTheShorter if right_one + 1 == shorter => Some(shorter),
        Mistake::EqualLengthsOnly if left.len() != right.len() => None,
        Mistake::OfTheKinds => first(&|at| left[at] % 8 != right[at] % 8),
        Mistake::OfThePayloads => first(&|at| left[at] / 8 != right[at] / 8),
        Mistake::WithoutBranches => {
            let branches = left[..right_one].iter().filter(|word| *word % 8 == 5);
            Some(right_one - branches.count())
        }
        Mistake::InBytes => Some(4 * right_one),
        Mistake::InOneByte => Some(right_one % 256),
        _ => Some(right_one),
    }
    .unwrap_or(0)
}

/// The judge's answer up to the lengths, and its position.
fn judged(mistake: Mistake, press: &Press, last: u32) -> (String, bool, u32) {
    let Answer {
        verdict,
        spent,
        left,
        right,
        ..
    } = press.answer;
    let position = position(mistake, press, last);
    let start = match mistake {
        Mistake::PrintedBeforeTheLengths => format!("{verdict} {spent} {position} {left} {right}"),
        _ => format!("{verdict} {spent} {left} {right}"),
    };
    (start, verdict == Verdict::Different, position)
}

fn verdict_line(mistake: Mistake, press: &Press) -> String {
    let (start, different, position) = judged(mistake, press, 0);
    let is_printed = match mistake {
        Mistake::PrintedWithEveryVerdict => true,
        Mistake::NotPrinted => false,
        Mistake::PrintedUnlessZero => position > 0,
        _ => different,
    };
    match is_printed {
        true => format!("{start} {position}\n"),
        false => format!("{start}\n"),
    }
}

fn replay_line(mistake: Mistake, press: &Press, last: u32) -> String {
    let (start, different, position) = judged(mistake, press, last);
    let is_printed = match mistake {
        Mistake::MissingOnLines | Mistake::PrintedBeforeTheLengths => false,
        Mistake::MissingUnlessDifferent => different,
        _ => true,
    };
    match is_printed {
        true => format!("{start} {position}\n"),
        false => format!("{start}\n"),
    }
}

/// Cases of the verdict program that are made for verdicts.
fn is_made_for_one(case: &u64) -> bool {
    match inputs::aim(*case) {
        Aim::Verdict(_) => true,
        Aim::Default(role) => !matches!(role, Role::Load(_)),
        _ => false,
    }
}

#[test]
fn inputs_tell_wrong_positions() {
    let told = on_large_stack(|| {
        let mut told = Told::of(&[OF_BOTH, OF_VERDICT].concat());
        for case in (0..2_500).filter(is_made_for_one) {
            let input = inputs::input(54, case);
            verdict::watch(&input, |before, operation| {
                if let Some(press) = Press::of(before, operation) {
                    let line = verdict::outcome(&input).to_string();
                    told.look(&line, |mistake| verdict_line(mistake, &press));
                }
            });
        }
        told
    });
    told.assert_all(10);
}

#[test]
fn scripts_tell_wrong_positions() {
    let told = on_large_stack(|| {
        let mut told = Told::of(&[OF_BOTH, OF_REPLAY].concat());
        for case in 0..750 {
            let mut last = 0;
            run_watched(&scripts::script(55, case), |before, operation| {
                if let Some(press) = Press::of(before, operation) {
                    told.look(&press.line, |mistake| replay_line(mistake, &press, last));
                    last = press.answer.position;
                }
            });
        }
        told
    });
    told.assert_all(20);
}
