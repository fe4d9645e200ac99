//! Choices of the form to show.

use crate::Told;
use reference::generate::scripts;
use reference::on_large_stack;
use reference::replay::{run_watched, Machine, Operation};
use reference::words::read;
use std::cmp::Ordering;

mistakes! {
    Mistake;
    MISTAKES:
    LeftAtEqualLengths,
    LeftOfEqualWords,
    LeftOfUnequalWords,
    LeftIfOneWordLonger,
    RightIfOneWordLonger,
    Longer,
    RightIfRefused,
    UnreadAtEqualLengths;
}

/// The line that is printed about a showing, with a mistake.
fn line(mistake: Mistake, machine: &Machine, lengths: (u32, u32)) -> String {
    let Machine { left, right, .. } = machine;
    let unread = mistake == Mistake::UnreadAtEqualLengths && lengths.0 == lengths.1;
    let form = |workspace: &[u32], length: u32| {
        let words = workspace.get(..length as usize)?.to_vec();
        (unread || read(&words).is_some()).then_some(words)
    };
    let fits = (16..=2_048).contains(&left.len()) && left.len() == right.len();
    let (side, words) = match (form(left, lengths.0), form(right, lengths.1)) {
        (Some(left), Some(right)) if fits => match takes_left(mistake, &left, &right) {
            true => (0, left),
            false => (1, right),
        },
        _ => (u32::from(mistake == Mistake::RightIfRefused), Vec::new()),
    };
    let words: String = words.iter().map(|word| format!(" {word}")).collect();
    format!("show {side}{words}\n")
}

fn takes_left(mistake: Mistake, left: &[u32], right: &[u32]) -> bool {
    let one_word = left.len().abs_diff(right.len()) == 1;
    match (mistake, left.len().cmp(&right.len())) {
        (Mistake::LeftAtEqualLengths, Ordering::Equal) => true,
        (Mistake::LeftOfEqualWords, Ordering::Equal) => left == right,
        (Mistake::LeftOfUnequalWords, Ordering::Equal) => left != right,
        (Mistake::LeftIfOneWordLonger, Ordering::Greater) => one_word,
        (Mistake::RightIfOneWordLonger, Ordering::Less) => !one_word,
        (Mistake::Longer, order) => order == Ordering::Greater,
        (_, order) => order == Ordering::Less,
    }
}

#[test]
fn scripts_tell_wrong_choices() {
    let told = on_large_stack(|| {
        let mut told = Told::of(MISTAKES);
        for case in 0..300 {
            run_watched(&scripts::script(56, case), |before, operation| {
                if let Operation::Show { lengths } = operation {
                    let mut expected = String::new();
                    before.clone().apply(operation, &mut expected);
                    told.look(&expected, |mistake| line(mistake, before, *lengths));
                }
            });
        }
        told
    });
    told.assert_all(20);
}
