//! What the program `replay` answers for pairs. It is started a few times for many of them.

use crate::failure::Failure;
use crate::verdict::Limits;
use unit::limits::WORKSPACE;
use unit::script::{Script, Side};
use unit::Term;

#[derive(Clone, Copy, Debug, PartialEq, Eq)]
pub enum Verdict {
    Same,
    Different,
    Budget,
    Full,
}

impl Verdict {
    pub const ALL: [Verdict; 4] = [
        Verdict::Same,
        Verdict::Different,
        Verdict::Budget,
        Verdict::Full,
    ];

    /// The word that the programs print.
    pub fn name(self) -> &'static str {
        match self {
            Verdict::Same => "Same",
            Verdict::Different => "Different",
            Verdict::Budget => "Budget",
            Verdict::Full => "Full",
        }
    }

    /// Whether it says something of the pair.
    pub fn decides(self) -> bool {
        matches!(self, Verdict::Same | Verdict::Different)
    }
}

/// Two terms. They are left out where no table holds one of them: definitions can make long ones of a
/// short file.
pub struct Pair {
    lengths: [usize; 2],
    terms: Option<[Term; 2]>,
}

impl Pair {
    pub fn new(left: Term, right: Term) -> Pair {
        let terms = [left, right];
        let lengths = terms.each_ref().map(Term::length);
        let is_held = lengths.iter().all(|length| length <= WORKSPACE.end());
        Pair {
            lengths,
            terms: is_held.then_some(terms),
        }
    }

    /// The words of both terms.
    pub fn lengths(&self) -> [usize; 2] {
        self.lengths
    }
}

/// A press that was not refused.
#[derive(Clone, Debug, PartialEq, Eq)]
pub struct Press {
    pub verdict: Verdict,
    pub contractions: u32,
    /// The words of both current terms.
    pub lengths: [u32; 2],
    /// The first word that differs, after Different.
    pub position: Option<usize>,
}

impl Press {
    /// The line of the program `verdict`.
    pub fn line(&self) -> String {
        let [left, right] = self.lengths;
        let position = self.position.map(|word| format!(" {word}"));
        format!(
            "{} {} {left} {right}{}",
            self.verdict.name(),
            self.contractions,
            position.unwrap_or_default()
        )
    }
}

#[derive(Debug, PartialEq, Eq)]
pub enum Answer {
    /// With the current terms that were wanted.
    Pressed(Press, Vec<(Side, Term)>),
    /// Of a load the side is known, of a press there is none.
    Refused { side: Option<Side>, number: u32 },
    /// No table holds one of the terms.
    TooLong,
}

/// Which of the current terms are wanted.
#[derive(Clone, Copy, PartialEq, Eq)]
pub enum Forms {
    /// The one that the unit shows, the shorter.
    Shown,
    Both,
}

/// Runs the program on an input and takes the lines that it prints.
pub type Run<'a> = dyn Fn(&[u8]) -> Result<String, Failure> + Sync + 'a;

/// The answer for each pair, from a fresh session. The first run finds out which pairs can be loaded,
/// the second presses those, and the third, which then knows the lengths, presses again and shows the
/// terms.
pub fn answers(
    pairs: &[&Pair],
    limits: Limits,
    forms: Forms,
    run: &Run,
) -> Result<Vec<Answer>, Failure> {
    let mut answers: Vec<Option<Answer>> = pairs
        .iter()
        .map(|pair| pair.terms.is_none().then_some(Answer::TooLong))
        .collect();
    let replay = Replay { pairs, limits, run };

    let open = positions(&answers, Option::is_none);
    let loads = replay.lines(&open, LOADS, |_, _| {})?;
    for (&place, lines) in open.iter().zip(&loads) {
        answers[place] = refused_load(lines)?;
    }

    let open = positions(&answers, Option::is_none);
    let press = |script: &mut Script, place: usize| {
        script.fresh_session();
        let lengths = pairs[place].lengths.map(|length| length as u32);
        script.press(lengths, limits.budget);
    };
    let presses = replay.lines(&open, LOADS + PRESS_LINES, press)?;
    for (&place, lines) in open.iter().zip(&presses) {
        let pressed = read_press(&lines[LOADS + PRESS_LINES - 1])?;
        answers[place] = Some(match pressed {
            Ok(press) => Answer::Pressed(press, Vec::new()),
            Err(number) => Answer::Refused { side: None, number },
        });
    }

    let pressed = positions(&answers, |answer| {
        matches!(answer, Some(Answer::Pressed(..)))
    });
    let lengths = |place: usize| match &answers[place] {
        Some(Answer::Pressed(press, _)) => press.lengths,
        _ => [0, 0],
    };
    let show = |script: &mut Script, place: usize| {
        press(script, place);
        match forms {
            Forms::Shown => script.show(lengths(place)),
            Forms::Both => script.print(),
        }
    };
    let shown = replay.lines(&pressed, LOADS + PRESS_LINES + forms.lines(), show)?;
    for (&place, lines) in pressed.iter().zip(&shown) {
        if let Some(Answer::Pressed(press, terms)) = &mut answers[place] {
            *terms = forms.read(&lines[LOADS + PRESS_LINES..], press)?;
        }
    }
    let answers = answers.into_iter();
    Ok(answers
        .map(|answer| answer.expect("every pair has its answer"))
        .collect())
}

/// The lines printed of two loads, and of a session and a press.
const LOADS: usize = 2;
const PRESS_LINES: usize = 2;

impl Forms {
    /// The lines printed.
    fn lines(self) -> usize {
        match self {
            Forms::Shown => 1,
            Forms::Both => 4,
        }
    }

    fn read(self, lines: &[String], press: &Press) -> Result<Vec<(Side, Term)>, Failure> {
        let [left, right] = press.lengths;
        let term = |line: &str, head: &str, length: u32| {
            let words = line.strip_prefix(head)?.split(' ').skip(1);
            let words: Option<Vec<u32>> = words.map(|word| word.parse().ok()).collect();
            Term::from_words(words?.get(..length as usize)?).ok()
        };
        let read = match self {
            Forms::Shown => match lines[0].split(' ').nth(1) {
                Some("0") => term(&lines[0], "show 0", left).map(|term| vec![(Side::Left, term)]),
                _ => term(&lines[0], "show 1", right).map(|term| vec![(Side::Right, term)]),
            },
            Forms::Both => term(&lines[0], "left", left)
                .zip(term(&lines[1], "right", right))
                .map(|(left, right)| vec![(Side::Left, left), (Side::Right, right)]),
        };
        read.ok_or_else(|| unexpected(&lines[0]))
    }
}

fn positions(
    answers: &[Option<Answer>],
    is_wanted: impl Fn(&Option<Answer>) -> bool,
) -> Vec<usize> {
    let places = 0..answers.len();
    places.filter(|&place| is_wanted(&answers[place])).collect()
}

struct Replay<'a> {
    pairs: &'a [&'a Pair],
    limits: Limits,
    run: &'a Run<'a>,
}

impl Replay<'_> {
    /// Loads the pairs at these places and makes further operations with each; the lines of each pair, so
    /// many.
    fn lines(
        &self,
        places: &[usize],
        count: usize,
        operations: impl Fn(&mut Script, usize),
    ) -> Result<Vec<Vec<String>>, Failure> {
        if places.is_empty() {
            return Ok(Vec::new());
        }
        let mut script = Script::new(self.limits.words);
        for &place in places {
            let terms = self.pairs[place].terms.as_ref();
            let [left, right] = terms.expect("tables hold both terms");
            script.load(Side::Left, left);
            script.load(Side::Right, right);
            operations(&mut script, place);
        }
        let printed = (self.run)(&script.bytes())?;
        let lines: Vec<String> = printed.lines().map(str::to_string).collect();
        if lines.len() != count * places.len() {
            return Err(unexpected(lines.last().map_or("", String::as_str)));
        }
        Ok(lines.chunks(count).map(<[String]>::to_vec).collect())
    }
}

/// The refusal of the first side that could not be loaded, if one could not.
fn refused_load(lines: &[String]) -> Result<Option<Answer>, Failure> {
    for (side, line) in [Side::Left, Side::Right].into_iter().zip(lines) {
        if let Some(number) = refusal(line) {
            let side = Some(side);
            return Ok(Some(Answer::Refused { side, number }));
        }
        if !line.starts_with("load ") {
            return Err(unexpected(line));
        }
    }
    Ok(None)
}

fn refusal(line: &str) -> Option<u32> {
    line.strip_prefix("refused ")?.parse().ok()
}

/// A press, or the number of its refusal.
fn read_press(line: &str) -> Result<Result<Press, u32>, Failure> {
    if let Some(number) = refusal(line) {
        return Ok(Err(number));
    }
    let mut fields = line.split(' ');
    let name = fields.next().unwrap_or_default();
    let verdict = Verdict::ALL
        .into_iter()
        .find(|verdict| verdict.name() == name);
    let numbers: Option<Vec<u32>> = fields.map(|field| field.parse().ok()).collect();
    match (verdict, numbers.as_deref()) {
        (Some(verdict), Some(&[contractions, left, right, position])) => Ok(Ok(Press {
            verdict,
            contractions,
            lengths: [left, right],
            position: (verdict == Verdict::Different).then_some(position as usize),
        })),
        _ => Err(unexpected(line)),
    }
}

fn unexpected(line: &str) -> Failure {
    Failure::program(format!(
        "the program printed something else than a line for each call: `{line}`"
    ))
}
