//! Inputs and scripts: every way in which bytes are broken, every rule that words
//! break, every call with every answer, calls at their limits, and what is done with
//! what lines and encodings leave.

use crate::common::census::Census;
use crate::Reach;
use reference::generate::inputs::{self, Aim};
use reference::generate::scripts;
use reference::press::{Side, Verdict};
use reference::random::Random;
use reference::refusal::Refusal;
use reference::replay::{self, Event, Machine, Operation};
use reference::term::MOST_BRANCHES;
use reference::verdict::{outcome, Outcome};
use reference::words::{kind, read};

pub const REACH: &[Reach] = &[
    Reach {
        subject: "broken inputs",
        cases: 1_500,
        least: 4,
        look: broken_inputs,
        features: &[
            "{no byte|no whole words}",
            "{left|right}: {no count|count 8,196|count 8,197|far count}",
            "{left|right}: {some bytes|one word|more} missing",
            "{left|right}: 8,197 words and no other fault",
            "{some bytes|one word|more} too many",
        ],
    },
    Reach {
        subject: "mixed inputs",
        cases: 1_500,
        least: 2,
        look: mixed_inputs,
        features: &["{Same|Different|Budget|Full|1|2|3|4|5|6|7|8|9}"],
    },
    Reach {
        subject: "words that are no term",
        cases: 500,
        least: 2,
        look: words_without_term,
        features: &[
            "too {few|many} words",
            "{kind 7|numeral 32|a larger numeral}",
            "an {abstraction|application} with a payload",
            "a {constructor of tag 0|branch of tag 0 that binds}",
            "a {constructor|branch} of {tag 256|a larger tag}",
            "{one branch|several branches} too many",
            "{a branch in a term's|no branch in its} place",
            "{equal|falling} tags",
            "{two defaults, side by side|a default behind another branch}",
            "{free number 256|a larger free number|the largest index}",
        ],
    },
    Reach {
        subject: "calls and answers",
        cases: 1_500,
        least: 2,
        look: calls,
        features: &[
            "{load|line|import|export|write|store} {left|right}",
            "load {left|right}, {1|2|3|4|5|6|7|8}",
            "line {left|right}, {6|7|8|11}",
            "import {left|right}, {7|8|12|13}",
            "export {left|right}, {7|8|10|13}",
            "write {left|right}, {1 by one less|1 by fewer|1 by one more|1 by more|7|10}",
            "press, {Same|Different|Budget|Full|9}",
            "press, 7 by {the left|the right|unequal workspaces|the scratch|an unequal scratch}",
            "press, 10 by the {left|right}'s {length 0|length above C|words}",
            "set session, {Same|Different|Budget|Full}",
            "show {left|right|right of equals|nothing}",
            "{store outside|print}",
        ],
    },
    Reach {
        subject: "broken scripts",
        cases: 14_400,
        least: 2,
        look: broken_scripts,
        features: &[
            "{long|long and broken|no start|some bytes}",
            "{operation 0|operation 11|far operation}",
            "{1|4|6|8|9|10}: {side 2|far side}",
            "{1|2|4|8|9|10}: {count 8197|far count}",
            "5: {verdict 4|far verdict}",
            "{8|9}: {byte 256|far byte}",
            "{1|2|3|4|5|6|8|9|10}: cut",
        ],
    },
    Reach {
        subject: "presses at their limits, and words behind terms",
        cases: 1_500,
        least: 5,
        look: limits,
        features: &[
            "{load|line|import} over other words",
            "a tail {becomes zeros|becomes zeros without a round|kept by a refusal}",
            "budget {0|at its limit|just above}",
            "sum {at its limit|just above|past 32 bits}",
            "total above alone",
            "pressed on after {an end|Budget}",
            "left of C words",
        ],
    },
    Reach {
        subject: "what lines and encodings leave",
        cases: 1_100,
        least: 3,
        look: left_behind,
        features: &[
            "line {accepted|6|8|11}, then {print|press|show|write|line}",
            "import {accepted|8|12|13}, then {print|press|show|export|import}",
            "{line against line|line against load|load against line}: {Same|Different|Budget|Full}",
            "export after {import|load|line|press}",
        ],
    },
];

/// The word at a place, if all its bytes are there.
fn word(bytes: &[u8], place: usize) -> Option<u32> {
    let bytes = bytes.get(4 * place..4 * place + 4)?;
    Some(u32::from_le_bytes([bytes[0], bytes[1], bytes[2], bytes[3]]))
}

fn broken_inputs(case: u64, census: &mut Census) {
    let bytes = inputs::aimed(&mut Random::new(41, case), Aim::Input);
    if outcome(&bytes) == Outcome::Input {
        census.meet_if(bytes.is_empty(), "no byte");
        census.meet_if(!bytes.len().is_multiple_of(4), "no whole words");
        look_at_tables(&bytes, census);
        let side = one_word_too_long(&bytes);
        side.into_iter().for_each(|side| census.meet(side));
    }
}

/// Why bytes are no input, by the side whose table is wrong first.
fn look_at_tables(bytes: &[u8], census: &mut Census) {
    let mut at = 2;
    for side in ["left", "right"] {
        let Some(count) = word(bytes, at) else {
            census.meet(format!("{side}: no count"));
            return;
        };
        census.meet_if(count == 8_197, format!("{side}: count 8,197"));
        census.meet_if(count > 1 << 29, format!("{side}: far count"));
        if count > 8_196 {
            return;
        }
        census.meet_if(count == 8_196, format!("{side}: count 8,196"));
        at += 1 + count as usize;
        census.meet(match (4 * at).saturating_sub(bytes.len()) {
            0 => continue,
            1..=3 => format!("{side}: some bytes missing"),
            4 => format!("{side}: one word missing"),
            _ => format!("{side}: more missing"),
        });
        return;
    }
    census.meet(match bytes.len() - 4 * at {
        0 => "nothing",
        1..=3 => "some bytes too many",
        4 => "one word too many",
        _ => "more too many",
    });
}

/// The side whose table is one word too long, if nothing else is wrong.
fn one_word_too_long(bytes: &[u8]) -> Option<&'static str> {
    let left = word(bytes, 2)? as usize;
    let right = word(bytes, 3 + left)? as usize;
    match (left, right) {
        _ if bytes.len() != 4 * (4 + left + right) => None,
        (8_197, 0..=8_196) => Some("left: 8,197 words and no other fault"),
        (0..=8_196, 8_197) => Some("right: 8,197 words and no other fault"),
        _ => None,
    }
}

fn mixed_inputs(case: u64, census: &mut Census) {
    let bytes = inputs::aimed(&mut Random::new(45, case), Aim::Mixed);
    census.meet(match outcome(&bytes) {
        Outcome::Answered(answer) => answer.verdict.to_string(),
        Outcome::Refused(refusal) => refusal.to_string(),
        Outcome::Input => "Input".to_string(),
    });
}

/// Each call of a script with the machine before it, and what is left unread.
fn each_call(input: &[u8], mut look: impl FnMut(&Machine, &Operation, Event)) -> Option<usize> {
    let (mut machine, mut script) = replay::start(input)?;
    let mut unread = input.len();
    while let Some(operation) = script.operation() {
        unread = script.unread();
        let before = machine.clone();
        let event = machine.apply(&operation, &mut String::new());
        look(&before, &operation, event);
    }
    Some(unread)
}

/// Of twelve scripts the third is about such words.
fn words_without_term(case: u64, census: &mut Census) {
    each_call(
        &scripts::script(46, 12 * case + 2),
        |before, operation, event| {
            let Operation::Press { lengths, .. } = operation else {
                return;
            };
            if event == Event::Press(Err(Refusal::NotATerm)) {
                let left = before.left.get(..lengths.0 as usize);
                let right = before.right.get(..lengths.1 as usize);
                let mut sides = [left, right].into_iter().flatten();
                let rule = sides.find_map(|words| broken_rule(words).filter(|_| !words.is_empty()));
                rule.into_iter().for_each(|rule| census.meet(rule));
            }
        },
    );
}

/// The first rule that the words break, if they break one.
fn broken_rule(words: &[u32]) -> Option<String> {
    let mut reader = Reader { ahead: words };
    match reader.term(0) {
        Err(rule) => Some(rule),
        Ok(()) => (!reader.ahead.is_empty()).then(|| "too many words".to_string()),
    }
}

/// Words that are read once more, up to the first that breaks a rule.
struct Reader<'a> {
    ahead: &'a [u32],
}

impl Reader<'_> {
    /// Kind and payload of the next word.
    fn next(&mut self) -> Result<(u32, u32), String> {
        let (word, ahead) = self.ahead.split_first().ok_or("too few words")?;
        self.ahead = ahead;
        Ok((word % 8, word / 8))
    }

    fn term(&mut self, binders: u32) -> Result<(), String> {
        let most = MOST_BRANCHES as u32;
        match self.next()? {
            (kind::VARIABLE, index) => free_number(index, binders),
            (kind::ABSTRACTION, 0) => self.term(binders + 1),
            (kind::APPLICATION, 0) => (0..2).try_for_each(|_| self.term(binders)),
            (kind::ABSTRACTION, _) => Err("an abstraction with a payload".to_string()),
            (kind::APPLICATION, _) => Err("an application with a payload".to_string()),
            (kind::CONSTRUCTOR, payload) => {
                in_range("constructor of tag 0", "constructor", payload)?;
                (0..payload % 16).try_for_each(|_| self.term(binders))
            }
            (kind::CASE, count) if count <= most => {
                self.term(binders)?;
                let mut last = None;
                (0..count).try_for_each(|_| self.branch(binders, &mut last))
            }
            (kind::CASE, count) if count == most + 1 => Err("one branch too many".to_string()),
            (kind::CASE, _) => Err("several branches too many".to_string()),
            (kind::BRANCH, _) => Err("a branch in a term's place".to_string()),
            (kind::NUMERAL, 0..=31) => Ok(()),
            (kind::NUMERAL, 32) => Err("numeral 32".to_string()),
            (kind::NUMERAL, _) => Err("a larger numeral".to_string()),
            (kind, _) => Err(format!("kind {kind}")),
        }
    }

    fn branch(&mut self, binders: u32, last: &mut Option<u32>) -> Result<(), String> {
        let (kind, payload) = self.next()?;
        if kind != kind::BRANCH {
            return Err("no branch in its place".to_string());
        }
        if payload > 0 {
            in_range("branch of tag 0 that binds", "branch", payload)?;
        }
        let tag = payload / 16;
        match last.replace(tag) {
            Some(0) if tag == 0 => Err("two defaults, side by side".to_string()),
            Some(_) if tag == 0 => Err("a default behind another branch".to_string()),
            Some(before) if tag == before => Err("equal tags".to_string()),
            Some(before) if tag < before => Err("falling tags".to_string()),
            _ => self.term(binders + payload % 16),
        }
    }
}

/// Tests a tag; `of_0` has it too small, `of` too large.
fn in_range(of_0: &str, of: &str, payload: u32) -> Result<(), String> {
    match payload / 16 {
        0 => Err(format!("a {of_0}")),
        1..=255 => Ok(()),
        256 => Err(format!("a {of} of tag 256")),
        _ => Err(format!("a {of} of a larger tag")),
    }
}

fn free_number(index: u32, binders: u32) -> Result<(), String> {
    match index.saturating_sub(binders) {
        0..=255 => Ok(()),
        _ if index == u32::MAX / 8 => Err("the largest index".to_string()),
        256 => Err("free number 256".to_string()),
        _ => Err("a larger free number".to_string()),
    }
}

fn calls(case: u64, census: &mut Census) {
    each_call(&scripts::script(42, case), |before, operation, event| {
        census.meet(called(before, operation, event));
    });
}

fn workspace(machine: &Machine, side: Side) -> &[u32] {
    match side {
        Side::Left => &machine.left,
        Side::Right => &machine.right,
    }
}

fn name(side: &Side) -> &'static str {
    match side {
        Side::Left => "left",
        Side::Right => "right",
    }
}

/// A call on a side, and its refusal.
fn on_side(call: &str, side: &Side, answer: Result<u32, Refusal>) -> String {
    match answer {
        Ok(_) => format!("{call} {}", name(side)),
        Err(refusal) => format!("{call} {}, {refusal}", name(side)),
    }
}

/// Call and answer in a few words.
fn called(before: &Machine, operation: &Operation, event: Event) -> String {
    match (operation, event) {
        (Operation::Load { side, .. }, Event::Load(answer)) => on_side("load", side, answer),
        (Operation::Line { side, .. }, Event::Line(answer)) => on_side("line", side, answer),
        (Operation::Import { side, .. }, Event::Import(answer)) => on_side("import", side, answer),
        (Operation::Export { side, .. }, Event::Export(answer)) => on_side("export", side, answer),
        (Operation::Press { scratch, .. }, Event::Press(Err(Refusal::Workspace))) => {
            format!("press, 7 by {}", wrong_workspace(before, *scratch))
        }
        (Operation::Press { lengths, .. }, Event::Press(Err(Refusal::NotATerm))) => {
            format!("press, 10 by the {}", wrong_term(before, *lengths))
        }
        (_, Event::Press(Ok(answer))) => format!("press, {}", answer.verdict),
        (_, Event::Press(Err(refusal))) => format!("press, {refusal}"),
        (_, Event::Show(Some((Side::Left, _)))) => "show left".to_string(),
        (
            Operation::Show {
                lengths: (one, other),
            },
            Event::Show(Some(_)),
        ) if one == other => "show right of equals".to_string(),
        (_, Event::Show(Some(_))) => "show right".to_string(),
        (_, Event::Show(None)) => "show nothing".to_string(),
        (
            Operation::Write {
                side,
                length,
                table,
            },
            Event::Write(answer),
        ) => on_side("write", side, answer) + wrong_length(*length, *table, answer),
        (Operation::SetSession(session), _) => format!("set session, {}", session.verdict),
        (Operation::Store { side, at, .. }, _) => {
            match (*at as usize) < workspace(before, *side).len() {
                true => format!("store {}", name(side)),
                false => "store outside".to_string(),
            }
        }
        (Operation::Print, _) => "print".to_string(),
        other => panic!("another event than the call's: {other:?}"),
    }
}

fn wrong_length(length: u32, table: usize, answer: Result<u32, Refusal>) -> &'static str {
    let fitting = 4 * (length as usize + 1);
    match answer {
        Err(Refusal::TableLength) if table + 1 == fitting => " by one less",
        Err(Refusal::TableLength) if table < fitting => " by fewer",
        Err(Refusal::TableLength) if table == fitting + 1 => " by one more",
        Err(Refusal::TableLength) => " by more",
        _ => "",
    }
}

fn wrong_workspace(before: &Machine, scratch: usize) -> &'static str {
    let fits = |length: usize| (16..=2_048).contains(&length);
    let (left, right) = (before.left.len(), before.right.len());
    match (fits(left), fits(right), fits(scratch)) {
        (false, _, _) => "the left",
        (true, false, _) => "the right",
        (true, true, _) if left != right => "unequal workspaces",
        (true, true, false) => "the scratch",
        (true, true, true) => "an unequal scratch",
    }
}

fn wrong_term(before: &Machine, lengths: (u32, u32)) -> &'static str {
    let words = before.left.get(..lengths.0 as usize);
    match words.and_then(read) {
        None if lengths.0 == 0 => "left's length 0",
        None if words.is_none() => "left's length above C",
        None => "left's words",
        Some(_) if lengths.1 == 0 => "right's length 0",
        Some(_) if lengths.1 as usize > before.right.len() => "right's length above C",
        Some(_) => "right's words",
    }
}

fn broken_scripts(case: u64, census: &mut Census) {
    // Scripts that may break are those of six cases in twenty-four.
    if !matches!(case / 12 % 24, 1 | 6 | 11 | 16 | 21 | 3) {
        return;
    }
    let input = scripts::script(43, case);
    let long = input.len() >= 4 * scripts::LONG;
    census.meet_if(input.len() < 8, "no start");
    if replay::run(&input).events.last() != Some(&Event::Script) {
        census.meet_if(long, "long");
        return;
    }
    census.meet_if(long, "long and broken");
    if let Some(unread) = each_call(&input, |_, _, _| {}) {
        let unread = unread.min(input.len() - 8);
        census.meet(broken(&input[input.len() - unread..]));
    }
}

/// Why the words at the break are no operation.
fn broken(bytes: &[u8]) -> String {
    let Some(code) = word(bytes, 0) else {
        return "some bytes".to_string();
    };
    let beyond = |name: &str, place: usize, limit: u32| {
        let value = word(bytes, place).filter(|value| *value > limit)?;
        Some(match value == limit + 1 {
            true => format!("{code}: {name} {value}"),
            false => format!("{code}: far {name}"),
        })
    };
    let side = || beyond("side", 1, 1);
    let count = |place| beyond("count", place, 8_196);
    let byte = |first| (first..bytes.len() / 4).find_map(|place| beyond("byte", place, 255));
    let wrong = match code {
        1 => side().or_else(|| count(2)),
        2 => count(1),
        4 | 10 => side().or_else(|| count(3)),
        5 => beyond("verdict", 4, 3),
        6 => side(),
        8 => side().or_else(|| count(2)).or_else(|| byte(3)),
        9 => side().or_else(|| count(3)).or_else(|| byte(4)),
        _ => None,
    };
    wrong.unwrap_or_else(|| match code {
        0 | 11 => format!("operation {code}"),
        12.. => "far operation".to_string(),
        _ => format!("{code}: cut"),
    })
}

fn limits(case: u64, census: &mut Census) {
    each_call(&scripts::script(44, case), |before, operation, event| {
        let tail = |side, length: u32| {
            let mut behind = workspace(before, side).iter().skip(length as usize);
            behind.any(|word| *word != 0)
        };
        match (operation, event) {
            (Operation::Load { side, .. }, Event::Load(Ok(length))) => {
                census.meet_if(tail(*side, length), "load over other words");
            }
            (Operation::Line { side, .. }, Event::Line(Ok(length))) => {
                census.meet_if(tail(*side, length), "line over other words");
            }
            (Operation::Import { side, .. }, Event::Import(Ok(length))) => {
                census.meet_if(tail(*side, length), "import over other words");
            }
            (
                Operation::Press {
                    budget, lengths, ..
                },
                Event::Press(answer),
            ) => {
                let tail = tail(Side::Left, lengths.0);
                let spent = answer.map(|answer| answer.spent > 0);
                look_at_press(before, *budget, tail, spent, census);
                let full = answer.is_ok_and(|answer| answer.left as usize == before.left.len());
                census.meet_if(full, "left of C words");
            }
            _ => {}
        }
    });
}

/// A press with words behind its left term or not, by whether it spends something.
fn look_at_press(
    before: &Machine,
    budget: u32,
    tail: bool,
    spent: Result<bool, Refusal>,
    census: &mut Census,
) {
    let total = before.session.total;
    let sum = u64::from(total) + u64::from(budget);
    match spent {
        Ok(spent) => {
            let ended = matches!(before.session.verdict, Verdict::Same | Verdict::Different);
            census.meet_if(tail && spent, "a tail becomes zeros");
            census.meet_if(tail && !spent, "a tail becomes zeros without a round");
            census.meet_if(sum == 1_000_000_000, "sum at its limit");
            census.meet_if(budget == 1_000_000, "budget at its limit");
            census.meet_if(budget == 0, "budget 0");
            census.meet_if(total > 0 && ended, "pressed on after an end");
            census.meet_if(total > 0 && !ended && spent, "pressed on after Budget");
        }
        Err(Refusal::Budget) => {
            let just = budget <= 1_000_000 && sum == 1_000_000_001;
            census.meet_if(tail, "a tail kept by a refusal");
            census.meet_if(budget == 1_000_001, "budget just above");
            census.meet_if(just, "sum just above");
            census.meet_if(budget == 0, "total above alone");
            census.meet_if(sum > u64::from(u32::MAX), "sum past 32 bits");
        }
        Err(_) => {}
    }
}

/// Lines over words that are not zeros, and imports, by what is done next; presses by
/// how both terms were brought in, and exports by what was before them.
fn left_behind(case: u64, census: &mut Census) {
    let mut last: Option<String> = None;
    let mut ways = ["nothing"; 2];
    each_call(&scripts::script(64, case), |before, operation, event| {
        let call = match operation {
            Operation::Load { .. } => "load",
            Operation::Line { .. } => "line",
            Operation::Import { .. } => "import",
            Operation::Export { .. } => "export",
            Operation::Press { .. } => "press",
            Operation::Show { .. } => "show",
            Operation::Write { .. } => "write",
            Operation::Print => "print",
            Operation::SetSession(_) | Operation::Store { .. } => "store",
        };
        if let Some(last) = last.take() {
            let met = format!("{last}, then {call}");
            census.meet_if(is_looked_at(&last, call), met);
        }
        match (operation, event) {
            (
                Operation::Load { side, .. }
                | Operation::Line { side, .. }
                | Operation::Import { side, .. },
                Event::Load(answer) | Event::Line(answer) | Event::Import(answer),
            ) => {
                let from = answer.map_or(0, |length| length as usize);
                let mut behind = workspace(before, *side).iter().skip(from);
                let over = call == "import" || behind.any(|word| *word != 0);
                let answered = answer.map_or_else(|why| why.to_string(), |_| "accepted".into());
                last = (call != "load" && over && answered != "7")
                    .then(|| format!("{call} {answered}"));
                if answer.is_ok() {
                    ways[*side as usize] = call;
                }
            }
            (Operation::Store { side, .. }, _) => ways[*side as usize] = "store",
            (_, Event::Press(Ok(answer))) => {
                let [left, right] = ways;
                let brought = [left, right].contains(&"line")
                    && ways.iter().all(|way| ["line", "load"].contains(way));
                let met = format!("{left} against {right}: {}", answer.verdict);
                census.meet_if(brought, met);
                ways = ["press"; 2];
            }
            (Operation::Export { side, .. }, Event::Export(Ok(_))) => {
                let way = ways[*side as usize];
                let known = ["import", "load", "line", "press"].contains(&way);
                census.meet_if(known, format!("export after {way}"));
            }
            _ => {}
        }
    });
}

/// Whether a call shows what the one before it has left.
fn is_looked_at(last: &str, call: &str) -> bool {
    match last.starts_with("line") {
        true => ["print", "press", "show", "write", "line"].contains(&call),
        false => ["print", "press", "show", "export", "import"].contains(&call),
    }
}
