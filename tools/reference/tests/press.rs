//! Presses, sessions and showing; expectations follow from the rounds and the
//! table of refusals in the rules.

mod common;

use common::{answer, different, numbers, pressed, rows, workspace};
use reference::press::Verdict::{Budget, Full, Same};
use reference::press::{press, show, Answer, Session, Side};
use reference::refusal::Refusal;

/// (\ 0) f0 and (\ 0) f1: one contraction each.
const I_F0: [u32; 4] = [2, 1, 0, 0];
const I_F1: [u32; 4] = [2, 1, 0, 8];
/// W W, whose next term has 20 words.
const W_W: [u32; 13] = [2, 1, 2, 2, 0, 0, 0, 1, 2, 2, 0, 0, 0];
/// Two contractions lead to f0: over 2,1,8,8.
const K_F0_F1: [u32; 7] = [2, 2, 1, 1, 8, 0, 8];

/// Everything that is lent to a press.
#[derive(Clone, Debug, PartialEq)]
struct Lent {
    left: Vec<u32>,
    right: Vec<u32>,
    scratch: Vec<u32>,
    session: Session,
}

impl Lent {
    fn new(left: &[u32], right: &[u32], capacity: usize) -> Self {
        Lent {
            left: workspace(left, capacity),
            right: workspace(right, capacity),
            scratch: vec![7; capacity],
            session: Session::fresh(),
        }
    }

    fn press(&mut self, lengths: (u32, u32), budget: u32) -> Result<Answer, Refusal> {
        press(
            &mut self.left,
            &mut self.right,
            &mut self.scratch,
            lengths,
            budget,
            &mut self.session,
        )
    }

    /// A press that must be refused and change nothing.
    fn assert_refused(&mut self, lengths: (u32, u32), budget: u32, refusal: Refusal) {
        let before = self.clone();
        assert_eq!(self.press(lengths, budget), Err(refusal));
        assert_eq!(*self, before);
    }
}

fn session(total: u32) -> Session {
    Session {
        total,
        left: 3,
        right: 4,
        verdict: Full,
    }
}

#[test]
fn refusal_7_by_each_length() {
    let wrong = [
        (15, 15, 15),
        (2_049, 2_049, 2_049),
        (0, 0, 0),
        (17, 16, 16),
        (16, 17, 16),
        (16, 16, 17),
        (16, 16, 15),
        (16, 16, 0),
        (2_048, 2_048, 2_049),
    ];
    for (left, right, scratch) in wrong {
        let mut lent = Lent::new(&[], &[], 0);
        lent.left = vec![0; left];
        lent.right = vec![0; right];
        lent.scratch = vec![7; scratch];
        lent.assert_refused((1, 1), 0, Refusal::Workspace);
    }
    for capacity in [16, 2_048] {
        let mut lent = Lent::new(&[0], &[0], capacity);
        assert_eq!(lent.press((1, 1), 0), answer(Same, 0, 1, 1));
    }
}

#[test]
fn refusal_9_by_the_budget() {
    let mut lent = Lent::new(&[0], &[0], 16);
    lent.assert_refused((1, 1), 1_000_001, Refusal::Budget);
    lent.assert_refused((1, 1), u32::MAX, Refusal::Budget);
    assert_eq!(lent.press((1, 1), 1_000_000), answer(Same, 0, 1, 1));
}

#[test]
fn refusal_9_by_the_total() {
    // Total and budget, and whether their sum is at most 1,000,000,000.
    let sums = [
        (999_999_999, 1, true),
        (999_999_999, 2, false),
        (1_000_000_000, 0, true),
        (1_000_000_000, 1, false),
        (999_000_000, 1_000_000, true),
        (999_000_001, 1_000_000, false),
        (1_000_000_001, 0, false),
        // This sum falls back below the limit in 32 bits.
        (u32::MAX, 1_000_000, false),
        (u32::MAX, 1, false),
    ];
    for (total, budget, passes) in sums {
        let mut lent = Lent::new(&[0], &[0], 16);
        lent.session = session(total);
        if passes {
            assert_eq!(lent.press((1, 1), budget), answer(Same, 0, 1, 1));
            assert_eq!(lent.session.total, total);
        } else {
            lent.assert_refused((1, 1), budget, Refusal::Budget);
        }
    }
}

#[test]
fn refusal_10_by_the_lengths() {
    // Behind the terms stand words 77 (kind 5), so no other length is right.
    for wrong in [0, 3, 5, 16, 17, 2_048, u32::MAX] {
        Lent::new(&I_F0, &I_F1, 16).assert_refused((wrong, 4), 9, Refusal::NotATerm);
        Lent::new(&I_F0, &I_F1, 16).assert_refused((4, wrong), 9, Refusal::NotATerm);
    }
    assert_eq!(pressed(&I_F0, &I_F1, 16, 9), different(2, 1, 1, 0));
}

#[test]
fn refusal_10_at_the_workspace_length() {
    // Fifteen abstractions and f0 fill the workspace; one word more does not
    // fit it.
    let mut lent = Lent::new(&[1; 16], &[0], 16);
    lent.left[15] = 120;
    assert_eq!(lent.press((16, 1), 0), different(0, 16, 1, 0));
    lent.assert_refused((17, 1), 0, Refusal::NotATerm);
}

#[test]
fn refusals_in_their_order() {
    let mut lent = Lent::new(&I_F0, &I_F1, 16);
    lent.assert_refused((0, 0), 1_000_001, Refusal::Budget);
    lent.assert_refused((0, 0), 1_000_000, Refusal::NotATerm);
    lent.scratch.push(7);
    lent.assert_refused((0, 0), 1_000_001, Refusal::Workspace);
}

#[test]
fn tails_and_scratch_become_zeros() {
    // Even where no round is made.
    for (budget, verdict) in [(0, Budget), (1, Full)] {
        let mut lent = Lent::new(&W_W, &[0], 16);
        assert_eq!(lent.press((13, 1), budget), answer(verdict, 0, 13, 1));
        assert_eq!(lent.left, [&W_W[..], &[0; 3]].concat());
        assert_eq!(lent.right, [0; 16]);
        assert_eq!(lent.scratch, [0; 16]);
    }
}

#[test]
fn words_after_a_press() {
    let mut lent = Lent::new(&K_F0_F1, &[8], 16);
    assert_eq!(lent.press((7, 1), 1), answer(Budget, 1, 4, 1));
    assert_eq!(lent.left, [&[2, 1, 8, 8][..], &[0; 12]].concat());
    assert_eq!(lent.right, [&[8][..], &[0; 15]].concat());
    assert_eq!(lent.press((4, 1), 1), different(1, 1, 1, 0));
    assert_eq!(lent.left, [0; 16]);
}

/// The words of two terms, C, budget, and the answer: verdict, spent, lengths, position.
const PRESSES: &str = r"
    # The bench pairs of the rules.
    2,2,1,1,8,0,8 | 0 | 16,2: Same 2 1 1 0
    2,2,1,1,8,0,8 | 0 | 16,1: Budget 1 4 1 0
    0 | 8 | 16,0: Different 0 1 1 0
    2,1,2,0,0,1,2,0,0 | 2,1,2,0,0,1,2,0,0 | 16,0: Same 0 9 9 0
    2,1,2,0,0,1,2,0,0 | 0 | 16,5: Budget 5 9 1 0
    2,2,1,1,8,0,2,1,2,0,0,1,2,0,0 | 0 | 16,2: Same 2 1 1 0
    1,2,8,0 | 0 | 16,0: Different 0 4 1 0
    2,1,2,2,0,0,0,1,2,2,0,0,0 | 0 | 16,1: Full 0 13 1 0
    2,1,2,2,0,0,0,1,2,2,0,0,0 | 0 | 16,0: Budget 0 13 1 0
    2,1,2,2,0,0,0,1,2,2,0,0,0 | 0 | 20,1: Budget 1 20 1 0
    2,1,2,2,0,0,0,1,2,2,0,0,0 | 0 | 19,1: Full 0 13 1 0
    # Both sides move in one round: where the left needs two contractions and the
    # right one, 2 are made and then 1.
    2,1,0,0 | 2,1,0,8 | 16,1: Budget 0 4 4 0
    2,1,0,0 | 2,1,0,8 | 16,2: Different 2 1 1 0
    2,2,1,1,8,0,8 | 2,1,0,0 | 16,2: Budget 2 4 1 0
    2,2,1,1,8,0,8 | 2,1,0,0 | 16,3: Same 3 1 1 0
    # Equal terms are Same before they are normal, and others Different only once they
    # are.
    2,1,0,0 | 2,1,0,0 | 16,9: Same 0 4 4 0
    8 | 8 | 16,0: Same 0 1 1 0
    2,1,0,0 | 8 | 16,0: Budget 0 4 1 0
    2,1,0,0 | 8 | 16,1: Different 1 1 1 0
    # \ (\ 0) 0 against \ 0: an abstraction is no end.
    1,2,1,0,0 | 1,0 | 16,0: Budget 0 5 2 0
    1,2,1,0,0 | 1,0 | 16,1: Same 1 2 2 0
    # Budget comes before Full: the next terms have 1 and 20 words. Full keeps the left
    # term too, although its contraction would fit.
    2,1,0,0 | 2,1,2,2,0,0,0,1,2,2,0,0,0 | 16,1: Budget 0 4 13 0
    2,1,0,0 | 2,1,2,2,0,0,0,1,2,2,0,0,0 | 16,2: Full 0 4 13 0
    2,1,2,2,0,0,0,1,2,2,0,0,0 | 2,1,0,0 | 16,2: Full 0 13 4 0
    # (\ 1(0, 0)) applied to a constructor of 6 arguments becomes 1(a, a) with 1 + 7 + 7
    # words, and of 7 arguments 17. Constructor 1 with 2, 6 and 7 arguments: 147, 179, 187.
    2,1,147,0,0,179,0,0,0,0,0,0 | 0 | 16,1: Different 1 15 1 0
    2,1,147,0,0,187,0,0,0,0,0,0,0 | 0 | 16,1: Full 0 13 1 0
    2,1,147,0,0,187,0,0,0,0,0,0,0 | 0 | 17,1: Different 1 17 1 0
    # case 3(f0) of _ -> f0 against f0 and f1, and stuck by the count, case 1() of
    # _ -> f0, 1/1 -> f0: a default counts as any contraction.
    12,395,0,5,0 | 0 | 16,0: Budget 0 5 1 0
    12,395,0,5,0 | 0 | 16,1: Same 1 1 1 0
    12,395,0,5,0 | 8 | 16,1: Different 1 1 1 0
    20,131,5,0,141,8 | 0 | 16,9: Different 0 6 1 0
    # Numeral 2, 22, becomes 1,1,2,8,2,8,0. Equal numerals need no contraction, even
    # where none would fit.
    22 | 1,1,2,8,2,8,0 | 16,0: Budget 0 1 7 0
    22 | 1,1,2,8,2,8,0 | 16,1: Same 1 7 7 0
    1,1,2,8,2,8,0 | 22 | 16,1: Same 1 7 7 0
    254 | 254 | 16,0: Same 0 1 1 0
    # Numerals 0 and 1 move together, to 1,1,0 and 1,1,2,8,0.
    6 | 0 | 16,1: Different 1 3 1 0
    6 | 14 | 16,1: Budget 0 1 1 0
    6 | 14 | 16,2: Different 2 3 5 2
    # Numeral n has 2n + 3 words: 6 has 15 and 7 17, 31 has 65; in f0 6, 2,0,54, it adds
    # 14 to 3.
    54 | 0 | 16,1: Different 1 15 1 0
    62 | 0 | 16,1: Full 0 1 1 0
    62 | 0 | 17,1: Different 1 17 1 0
    2,0,54 | 0 | 16,0: Budget 0 3 1 0
    2,0,54 | 0 | 16,1: Full 0 3 1 0
    0 | 2,0,54 | 16,1: Full 0 1 3 0
    2,0,54 | 0 | 17,1: Different 1 17 1 0
    254 | 0 | 64,1: Full 0 1 1 0
    254 | 0 | 65,1: Different 1 65 1 0
    # (\ \ 1) f0 31 and case 2(f0, 31) of 2/2 -> 1: the numeral, which would not fit, is
    # thrown away.
    2,2,1,1,8,0,254 | 0 | 16,2: Same 2 1 1 0
    12,275,0,254,277,8 | 0 | 16,1: Same 1 1 1 0
    # \ \ \ \ 3 1 (2 1 0) applied to 2 and 2 against 4 and 5. Both sides move first: beta
    # on the left, and 4 becomes 11 words. Then beta to \ \ 2 1 (2 1 0), 11 words, and for
    # each numeral 2 in turn its own contraction, 17 words, and two by beta, 14 and 11.
    2,2,1,1,1,1,2,2,24,8,2,2,16,8,0,22,22 | 38 | 17,1: Budget 0 17 1 0
    2,2,1,1,1,1,2,2,24,8,2,2,16,8,0,22,22 | 38 | 17,2: Budget 2 14 11 0
    2,2,1,1,1,1,2,2,24,8,2,2,16,8,0,22,22 | 38 | 17,3: Budget 3 11 11 0
    2,2,1,1,1,1,2,2,24,8,2,2,16,8,0,22,22 | 38 | 17,4: Budget 4 17 11 0
    2,2,1,1,1,1,2,2,24,8,2,2,16,8,0,22,22 | 38 | 17,8: Budget 8 14 11 0
    2,2,1,1,1,1,2,2,24,8,2,2,16,8,0,22,22 | 38 | 17,9: Same 9 11 11 0
    # Numeral 5 goes on with 2,8 where numeral 4 ends with 0, at word 10.
    2,2,1,1,1,1,2,2,24,8,2,2,16,8,0,22,22 | 46 | 17,9: Different 9 11 13 10
    # The position is that of the current forms. 1((\ 0) f0, f1) becomes 1(f0, f1), which
    # differs from 1(f0, f2) at word 2; the first terms differ at word 1.
    147,2,1,0,0,8 | 147,0,16 | 16,1: Different 1 3 3 2
    # (\ 1(0, f0)) f1 and f2 differ at word 5, and become 1(f1, f0) and 1(f2, f0).
    2,1,147,0,8,8 | 2,1,147,0,8,16 | 16,2: Different 2 3 3 1
    # (\ 1(0, 0)) f0 against 1(f0, f0 f0): at word 0, then 1(f0, f0) and word 2.
    2,1,147,0,0,0 | 147,0,2,0,0 | 16,1: Different 1 3 5 2
    # There is none with the other verdicts: 1((\ 0) f0, f1), 1(f0, (\ \ 1) f0 f1),
    # 1(f0, W W), whose next form has 22 words, and 1(f0, 7) against 1(f0, f1).
    147,2,1,0,0,8 | 147,0,8 | 16,0: Budget 0 6 3 0
    147,2,1,0,0,8 | 147,0,8 | 16,1: Same 1 3 3 0
    147,0,2,2,1,1,8,0,8 | 147,0,8 | 16,1: Budget 1 6 3 0
    147,0,2,1,2,2,0,0,0,1,2,2,0,0,0 | 147,0,8 | 16,1: Full 0 15 3 0
    147,0,62 | 147,0,8 | 16,1: Full 0 3 3 0
    147,0,8 | 147,0,62 | 16,0: Budget 0 3 3 0
";

#[test]
fn presses_and_their_answers() {
    for row in rows(PRESSES) {
        let (call, expected) = row.split_once(": ").expect("an answer");
        let parts: Vec<&str> = call.split(" | ").collect();
        let (left, right) = (numbers(parts[0]), numbers(parts[1]));
        let limits = numbers(parts[2]);
        let answer = pressed(&left, &right, limits[0] as usize, limits[1]).expect("two terms");
        let line = format!("{answer} {}", answer.position);
        assert_eq!(line, expected, "{row}");
    }
}

/// Normal forms and the first word at which they differ, whichever is left.
const APART: &str = r"
    # At the first word alone: f0 f1 and 1(f0, f1), 1(f0) and 2(f0).
    2,0,8 | 147,0,8 | 0
    139,0 | 267,0 | 0
    # At the last word of the shorter: f0 f1 and f0 f2, f0 (\ 0), f0 (f0 f0).
    2,0,8 | 2,0,16 | 2
    2,0,8 | 2,0,1,0 | 2
    2,0,8 | 2,0,2,0,0 | 2
    1,1,0 | 1,1,2,8,0 | 2
    # Inside forms of unequal lengths: 1(f0, 1(f1, f0)) and 1(f0, 1(\ 0, f0)).
    147,0,147,8,0 | 147,0,147,1,0,0 | 3
    # The first of several.
    147,0,0 | 147,8,8 | 1
    155,0,8,16 | 155,8,8,0 | 1
    147,1,0,0 | 147,1,8,8 | 2
    # Payload 0 as variable, abstraction, application and case; payload 16 as variable 16
    # and constructor 1 without arguments.
    147,8,0 | 147,8,1,0 | 2
    147,8,0 | 147,8,2,0,0 | 2
    147,8,0 | 147,8,4,0 | 2
    147,8,1,0 | 147,8,2,0,0 | 2
    147,8,1,0 | 147,8,4,0 | 2
    147,8,2,0,0 | 147,8,4,0 | 2
    147,8,128 | 147,8,131 | 2
    # Constructors by their tag, and by their arguments, equal as far as both have them.
    1,131 | 1,259 | 1
    1,131 | 1,32643 | 1
    1,139,0 | 1,147,0,0 | 1
    1,131 | 1,139,0 | 1
    # case f0 of 1 -> f0, with another subject, tag, bound count, body and branches.
    12,0,133,0 | 12,8,133,0 | 1
    12,0,133,0 | 12,0,261,0 | 2
    12,0,133,0 | 12,0,141,0 | 2
    12,0,133,0 | 12,0,133,8 | 3
    1,4,0 | 1,12,0,133,0 | 1
    1,12,0,133,0 | 1,20,0,133,0,261,0 | 1
    20,0,133,0,261,0 | 20,0,133,0,389,0 | 4
    20,0,133,0,261,0 | 20,0,133,0,269,0 | 4
    20,0,133,0,261,0 | 20,0,133,0,261,8 | 5
";

/// A press of two normal forms that differ first at a position.
fn assert_apart(one: &[u32], other: &[u32], at: u32) {
    for (left, right) in [(one, other), (other, one)] {
        let lengths = (left.len() as u32, right.len() as u32);
        let expected = different(0, lengths.0, lengths.1, at);
        assert_eq!(pressed(left, right, 512, 0), expected);
    }
}

#[test]
fn normal_forms_and_where_they_differ() {
    for row in rows(APART) {
        let parts: Vec<Vec<u32>> = row.split('|').map(numbers).collect();
        assert_apart(&parts[0], &parts[1], parts[2][0]);
    }
    // 1(1( .. f0)), 301 words, applied to f1 and to f2.
    let function = [&[139; 300][..], &[0]].concat();
    let applied = |argument| [&[2][..], &function, &[argument]].concat();
    assert_apart(&applied(8), &applied(16), 1 + 301);
}

#[test]
fn session_is_renewed() {
    let mut lent = Lent::new(&K_F0_F1, &[0], 16);
    lent.session = session(40);
    assert_eq!(lent.press((7, 1), 1), answer(Budget, 1, 4, 1));
    let after = |total, left, verdict| Session {
        total,
        left,
        right: 1,
        verdict,
    };
    assert_eq!(lent.session, after(41, 4, Budget));
    assert_eq!(lent.press((4, 1), 5), answer(Same, 1, 1, 1));
    assert_eq!(lent.session, after(42, 1, Same));
    // Pressing on after Same spends nothing and changes nothing more.
    let same = lent.clone();
    assert_eq!(lent.press((1, 1), 5), answer(Same, 0, 1, 1));
    assert_eq!(lent, same);
}

#[test]
fn divided_budget_makes_the_rounds_of_one_press() {
    // K f0 f1 against f0 with 1 and 1 is as with 2.
    let mut divided = Lent::new(&K_F0_F1, &[0], 16);
    assert_eq!(divided.press((7, 1), 1), answer(Budget, 1, 4, 1));
    divided.assert_refused((7, 1), 1, Refusal::NotATerm);
    assert_eq!(divided.press((4, 1), 1), answer(Same, 1, 1, 1));
    let mut whole = Lent::new(&K_F0_F1, &[0], 16);
    assert_eq!(whole.press((7, 1), 2), answer(Same, 2, 1, 1));
    assert_eq!(divided, whole);
    // Where both sides must move, 1 and 1 make no round.
    let mut divided = Lent::new(&I_F0, &I_F1, 16);
    assert_eq!(divided.press((4, 4), 1), answer(Budget, 0, 4, 4));
    assert_eq!(divided.press((4, 4), 1), answer(Budget, 0, 4, 4));
    assert_eq!(divided.press((4, 4), 2), different(2, 1, 1, 0));
}

/// What is shown of two lists of words in workspaces of 16.
fn shown(left: &[u32], right: &[u32]) -> Option<(Side, usize)> {
    let lengths = (left.len() as u32, right.len() as u32);
    show(&workspace(left, 16), &workspace(right, 16), lengths)
}

#[test]
fn shorter_form_is_shown() {
    // f1, \ 0, f0 f1 and (\ 0) f0.
    let forms: [&[u32]; 4] = [&[8], &[1, 0], &[2, 0, 8], &I_F0];
    for (fewer, short) in (1..).zip(forms) {
        for long in &forms[fewer..] {
            assert_eq!(shown(short, long), Some((Side::Left, fewer)));
            assert_eq!(shown(long, short), Some((Side::Right, fewer)));
        }
    }
}

#[test]
fn right_form_is_shown_at_equal_lengths() {
    let right = |length| Some((Side::Right, length));
    assert_eq!(shown(&I_F0, &I_F1), right(4));
    assert_eq!(shown(&I_F1, &I_F0), right(4));
    assert_eq!(shown(&[0], &[8]), right(1));
    // \ 0 beside 1(f1), which has no word of it, and beside \ f0.
    assert_eq!(shown(&[1, 0], &[139, 8]), right(2));
    assert_eq!(shown(&[1, 0], &[1, 8]), right(2));
    // Equal words on both sides.
    assert_eq!(shown(&I_F0, &I_F0), right(4));
    assert_eq!(shown(&[0], &[0]), right(1));
    // Forms of all 16 words: abstractions around a variable.
    let whole = |last| [&[1; 15][..], &[last]].concat();
    assert_eq!(shown(&whole(0), &whole(8)), right(16));
    assert_eq!(shown(&whole(0), &whole(0)), right(16));
}

#[test]
fn showing_is_refused_by_7_and_10() {
    let (left, right) = (workspace(&I_F0, 16), workspace(&[8], 16));
    for lengths in [
        (0, 1),
        (3, 1),
        (5, 1),
        (4, 0),
        (4, 2),
        (17, 1),
        (4, u32::MAX),
    ] {
        assert_eq!(show(&left, &right, lengths), None, "{lengths:?}");
    }
    assert_eq!(show(&left, &workspace(&[8], 17), (4, 1)), None);
    for (capacity, passes) in [(15, false), (16, true), (2_048, true), (2_049, false)] {
        let equal = workspace(&[8], capacity);
        assert_eq!(show(&equal, &equal, (1, 1)).is_some(), passes);
    }
}
