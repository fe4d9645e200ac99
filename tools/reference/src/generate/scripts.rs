//! Scripts for the replaying program.

mod exchange;

use crate::default;
use crate::generate::damage::{
    changed_word, faulty_default, faulty_default_words, faulty_numeral, faulty_table, faulty_words,
    wrong_numeral, FAULTS,
};
use crate::generate::inputs::{wrong_budget, wrong_capacity};
use crate::generate::pairs::{
    default_trial, near_trial, numeral_trial, plain_trial, stuck_trial, trial, trial_in, Trial,
};
use crate::generate::tables::{term_table, Order};
use crate::generate::terms::{replace, subterms, term, Style};
use crate::generate::{lines, near};
use crate::input::bytes;
use crate::line::LINE;
use crate::press::{rounds, Session, Side, Verdict, LARGEST_BUDGET, LARGEST_TOTAL};
use crate::random::Random;
use crate::refusal::Refusal;
use crate::replay::{Event, Machine, Operation, VERDICTS};
use crate::table::{LONGEST_TABLE, RECORD};
use crate::term::{abs, num, var, Term, LARGEST_NUMERAL, WORKSPACE};
use crate::words::{kind, kind_of};

/// What a script is about; the cases of a run go through these in turn.
const SUBJECTS: [fn(&mut Random) -> Composer; 12] = [
    press_list,
    refused_loads,
    wrong_words,
    press_list,
    session_limits,
    writing,
    odd_workspaces,
    numerals,
    forms_apart,
    typed_pairs,
    every_line,
    defaults,
];

/// The script of one case of a run; every one has encodings at its end.
pub fn script(seed: u64, case: u64) -> Vec<u8> {
    let mut random = Random::new(seed, case);
    let subjects = SUBJECTS.len() as u64;
    let mut composer = SUBJECTS[(case % subjects) as usize](&mut random);
    exchange::exchange(&mut random, &mut composer);
    match (case / subjects) % 24 {
        1 | 6 | 11 | 16 | 21 => broken_script(&mut random, composer),
        3 => long_script(&mut random, composer),
        _ => bytes(&composer.words),
    }
}

/// A script in workspaces of this length with a call of each kind, none refused
/// but exports of terms that have no encoding.
pub fn in_length(seed: u64, capacity: usize) -> Vec<u8> {
    let mut random = Random::new(!seed, capacity as u64);
    let trial = trial_in(&mut random, capacity);
    let mut composer = Composer::new(capacity as u32, capacity as u32);
    composer.load_trial(&mut random, &trial);
    composer.press(trial.budget);
    composer.show();
    let side = any_side(&mut random);
    let length = composer.length(side);
    let table = RECORD * (length as usize + 1);
    composer.add(Operation::Write {
        side,
        length,
        table,
    });
    composer.add(Operation::Export {
        side,
        length,
        bytes: LONGEST_TABLE,
    });
    let line = vec![b'0'];
    composer.add(Operation::Line { side, line });
    composer.add(Operation::Import {
        side,
        count: 4,
        bytes: vec![0x20],
    });
    composer.print();
    bytes(&composer.words)
}

/// A budget that is soon spent on any terms.
const FEW_ROUNDS: u32 = 100;

/// The words of a long script, at least: a program that keeps whole scripts
/// needs much room for it.
pub const LONG: usize = 40_000;

/// A script in the making, with the state that its operations lead to.
struct Composer {
    words: Vec<u32>,
    machine: Machine,
    /// The lengths last returned.
    lengths: (u32, u32),
    /// A budget whose rounds are soon made on the current terms.
    budget: u32,
}

impl Composer {
    fn new(left: u32, right: u32) -> Self {
        Composer {
            words: vec![left, right],
            machine: Machine::new(left, right),
            lengths: (0, 0),
            budget: 1,
        }
    }

    fn add(&mut self, operation: Operation) {
        self.words.extend(encoded(&operation));
        match (
            self.machine.apply(&operation, &mut String::new()),
            operation,
        ) {
            (Event::Press(Ok(answer)), _) => self.lengths = (answer.left, answer.right),
            (Event::Load(Ok(length)), Operation::Load { side, .. })
            | (Event::Line(Ok(length)), Operation::Line { side, .. })
            | (Event::Import(Ok(length)), Operation::Import { side, .. }) => match side {
                Side::Left => self.lengths.0 = length,
                Side::Right => self.lengths.1 = length,
            },
            _ => {}
        }
    }

    /// Brings a term in, by a table or, if it has one, now and then by a line.
    fn load(&mut self, random: &mut Random, side: Side, term: &Term) {
        if random.percent(20) && lines::is_plain(term) {
            self.type_in(random, side, term);
        } else {
            self.load_table(random, side, term);
        }
    }

    fn load_table(&mut self, random: &mut Random, side: Side, term: &Term) {
        let order = Order::random(random);
        let table = term_table(random, term, order);
        self.add(Operation::Load { side, table });
    }

    /// Brings a term in by a line; by a table if its line is too long.
    fn type_in(&mut self, random: &mut Random, side: Side, term: &Term) {
        let extra = random.pick(&[0, 0, 5, 30]);
        let line = lines::written(random, term, extra);
        match line.len() <= *LINE.end() {
            true => self.add(Operation::Line { side, line }),
            false => self.load_table(random, side, term),
        }
    }

    /// A line of any kind, most often one that is refused.
    fn any_line(&mut self, random: &mut Random) {
        let side = any_side(random);
        let capacity = self.workspace(side).len();
        let capacity = capacity.clamp(*WORKSPACE.start(), *WORKSPACE.end());
        let line = lines::any(random, capacity);
        self.add(Operation::Line { side, line });
        self.budget = self.budget.min(FEW_ROUNDS);
    }

    fn load_trial(&mut self, random: &mut Random, trial: &Trial) {
        self.load(random, Side::Left, &trial.left);
        self.load(random, Side::Right, &trial.right);
        self.budget = trial.budget;
    }

    /// Loads a term that may run on against the other side.
    fn load_any(&mut self, random: &mut Random) {
        let size = random.between(1, *WORKSPACE.start());
        let style = Style::random(random);
        let term = term(random, size, 0, style);
        let side = any_side(random);
        self.load(random, side, &term);
        self.budget = self.budget.min(FEW_ROUNDS);
    }

    fn press(&mut self, budget: u32) {
        self.add(Operation::Press {
            scratch: self.machine.left.len(),
            lengths: self.lengths,
            budget,
        });
    }

    fn show(&mut self) {
        let lengths = self.lengths;
        self.add(Operation::Show { lengths });
    }

    /// Shows a form beside itself, beside another as long and beside one that is
    /// a word longer, then that one beside one that is a word longer again.
    fn show_beside(&mut self, random: &mut Random, form: &Term) {
        let (side, other) = random.pick(&[(Side::Left, Side::Right), (Side::Right, Side::Left)]);
        let last = subterms(form).len() - 1;
        let as_long = match replace(form, last, &var(0)) {
            same if same == *form => replace(form, last, &num(0)),
            other => other,
        };
        let longer = abs(form.clone());
        let longest = abs(longer.clone());
        self.load(random, side, form);
        for (side, term) in [
            (other, form),
            (other, &as_long),
            (other, &longer),
            (side, &longest),
        ] {
            self.load(random, side, term);
            self.show();
        }
    }

    fn print(&mut self) {
        self.add(Operation::Print);
    }

    fn length(&self, side: Side) -> u32 {
        match side {
            Side::Left => self.lengths.0,
            Side::Right => self.lengths.1,
        }
    }

    fn workspace(&self, side: Side) -> &[u32] {
        match side {
            Side::Left => &self.machine.left,
            Side::Right => &self.machine.right,
        }
    }

    fn write(&mut self, random: &mut Random, side: Side) {
        let length = self.length(side);
        let right = RECORD * (length as usize + 1);
        let table = match random.below(8) {
            0 => right + random.pick(&[1, 4]),
            1 => right - random.pick(&[1, 4]),
            2 => random.pick(&[0, 3, 4, LONGEST_TABLE]),
            _ => right,
        };
        let length = wrong_length(random, length, 15);
        self.add(Operation::Write {
            side,
            length,
            table: table.min(LONGEST_TABLE),
        });
    }

    /// Stores words behind the current terms.
    fn store_behind(&mut self, random: &mut Random) {
        let side = any_side(random);
        let length = self.length(side);
        for _ in 0..random.between(1, 3) {
            let at = length + random.below(8) as u32;
            let word = random.word();
            self.add(Operation::Store { side, at, word });
        }
    }
}

fn any_trial(random: &mut Random) -> Trial {
    let verdict = random.pick(&VERDICTS);
    let wish = random.percent(80).then_some(verdict);
    trial(random, wish)
}

fn any_side(random: &mut Random) -> Side {
    random.pick(&[Side::Left, Side::Right])
}

fn encoded(operation: &Operation) -> Vec<u32> {
    match operation {
        Operation::Load { side, table } => {
            let mut words = vec![1, *side as u32, table.len() as u32];
            words.extend(table);
            words
        }
        Operation::Press {
            scratch,
            lengths,
            budget,
        } => vec![2, *scratch as u32, lengths.0, lengths.1, *budget],
        Operation::Show { lengths } => vec![3, lengths.0, lengths.1],
        Operation::Write {
            side,
            length,
            table,
        } => vec![4, *side as u32, *length, *table as u32],
        Operation::SetSession(session) => {
            let verdict = session.verdict as u32;
            vec![5, session.total, session.left, session.right, verdict]
        }
        Operation::Store { side, at, word } => vec![6, *side as u32, *at, *word],
        Operation::Print => vec![7],
        Operation::Line { side, line } => {
            let mut words = vec![8, *side as u32, line.len() as u32];
            words.extend(line.iter().map(|byte| u32::from(*byte)));
            words
        }
        Operation::Import { side, count, bytes } => {
            let mut words = vec![9, *side as u32, *count, bytes.len() as u32];
            words.extend(bytes.iter().map(|byte| u32::from(*byte)));
            words
        }
        Operation::Export {
            side,
            length,
            bytes,
        } => vec![10, *side as u32, *length, *bytes as u32],
    }
}

/// The length, in `part` of 100 calls changed to a wrong one.
fn wrong_length(random: &mut Random, length: u32, part: usize) -> u32 {
    if !random.percent(part) {
        return length;
    }
    let beyond = *WORKSPACE.end() as u32 + 1;
    random.pick(&[0, length + 1, length.wrapping_sub(1), beyond, u32::MAX])
}

fn any_session(random: &mut Random) -> Session {
    let most = LARGEST_TOTAL as u32;
    let near = most - random.below(3) as u32;
    let any = random.word();
    Session {
        total: random.pick(&[0, 12_345, near, most - LARGEST_BUDGET, most + 1, any]),
        left: random.below(3000) as u32,
        right: random.word(),
        verdict: random.pick(&VERDICTS),
    }
}

/// A list of presses on one pair, with other calls and refused ones between.
fn press_list(random: &mut Random) -> Composer {
    let trial = any_trial(random);
    let mut composer = Composer::new(trial.capacity as u32, trial.capacity as u32);
    composer.load_trial(random, &trial);
    if random.percent(40) {
        composer.store_behind(random);
    }
    for _ in 0..random.between(2, 8) {
        any_call(random, &mut composer);
    }
    composer.print();
    composer
}

fn any_call(random: &mut Random, composer: &mut Composer) {
    let budget = composer.budget;
    match random.below(17) {
        0 | 1 => wrong_press(random, composer),
        2 => composer.show(),
        3 => {
            let lengths = composer.lengths;
            composer.add(Operation::Show {
                lengths: (
                    wrong_length(random, lengths.0, 50),
                    wrong_length(random, lengths.1, 50),
                ),
            });
        }
        4 => {
            let side = any_side(random);
            composer.write(random, side);
        }
        5 | 6 => composer.print(),
        7 => composer.add(Operation::SetSession(any_session(random))),
        8 => composer.store_behind(random),
        9 => composer.load_any(random),
        10 => composer.any_line(random),
        _ => {
            let part = random.below(budget as usize + 1) as u32;
            composer.press(random.pick(&[0, 1, 2, 3, part, budget, budget]));
        }
    }
}

/// Presses on forms that share their first words, up to Different and again,
/// then with another term on one side; forms shown, at the end some whose
/// lengths are close.
fn forms_apart(random: &mut Random) -> Composer {
    let trial = near_trial(random);
    let mut composer = Composer::new(trial.capacity as u32, trial.capacity as u32);
    composer.load_trial(random, &trial);
    for _ in 0..random.below(3) {
        composer.press(random.pick(&[0, 1, 2, 3, 5]));
    }
    composer.press(trial.budget);
    composer.print();
    composer.show();
    composer.press(0);
    let (side, other) = random.pick(&[(Side::Left, &trial.right), (Side::Right, &trial.left)]);
    let style = Style::random(random);
    let term = match random.below(3) {
        0 => other.clone(),
        1 => near::changed(random, other, style),
        // The numeral takes the place of the last word.
        _ => replace(other, subterms(other).len() - 1, &num(LARGEST_NUMERAL)),
    };
    composer.load(random, side, &term);
    composer.press(random.pick(&[0, 1, FEW_ROUNDS]));
    composer.press(FEW_ROUNDS);
    composer.print();
    composer.show_beside(random, &trial.left);
    composer
}

/// A press with one of its numbers wrong, now and then several.
fn wrong_press(random: &mut Random, composer: &mut Composer) {
    let one = random.below(4);
    let mut is_wrong = |number| number == one || random.percent(10);
    let [scratch, budget, left, right] = [0, 1, 2, 3].map(&mut is_wrong);
    let capacity = composer.machine.left.len();
    let near = random.pick(&[capacity.saturating_sub(1), capacity + 1]);
    let other = random.pick(&[near, near, 0, 15, 16, 2_048, 2_049, LONGEST_TABLE]);
    let large = wrong_budget(random);
    let lengths = composer.lengths;
    composer.add(Operation::Press {
        scratch: if scratch { other } else { capacity },
        lengths: (
            wrong_length(random, lengths.0, 100 * usize::from(left)),
            wrong_length(random, lengths.1, 100 * usize::from(right)),
        ),
        budget: if budget { large } else { composer.budget },
    });
}

/// Loads of tables with each fault, over a term that has to stay.
fn refused_loads(random: &mut Random) -> Composer {
    let trial = any_trial(random);
    let capacity = trial.capacity.min(WORKSPACE.end() - 1);
    let mut composer = Composer::new(capacity as u32, capacity as u32);
    composer.load_trial(random, &trial);
    composer.show();
    let again = [(); 4].map(|()| random.pick(&FAULTS));
    for fault in FAULTS.into_iter().chain(again) {
        let second = random.pick(&FAULTS);
        let faults = [fault, if random.percent(20) { second } else { fault }];
        let side = any_side(random);
        let table = faulty_table(random, &faults, capacity);
        composer.add(Operation::Load { side, table });
        if random.percent(25) {
            composer.print();
        }
    }
    composer.press(composer.budget);
    composer.print();
    composer
}

/// Words stored in place of a term's, then every call that reads them.
fn wrong_words(random: &mut Random) -> Composer {
    let trial = any_trial(random);
    let capacity = trial.capacity.max(random.pick(&[16, 60])) as u32;
    let mut composer = Composer::new(capacity, capacity);
    composer.load_trial(random, &trial);
    composer.budget = trial.budget.min(FEW_ROUNDS);
    for _ in 0..random.between(1, 3) {
        let side = any_side(random);
        if random.percent(50) {
            store_changed(random, &mut composer, side);
        } else {
            store_faulty(random, &mut composer, side);
        }
        composer.show();
        composer.write(random, side);
        composer.press(composer.budget);
        if random.percent(30) {
            composer.print();
        }
    }
    composer
}

/// Stores one wrong word in the term of a side.
fn store_changed(random: &mut Random, composer: &mut Composer, side: Side) {
    let length = composer.length(side) as usize;
    let workspace = composer.workspace(side);
    if length > 0 {
        // Words with a range for their payload are few and taken more often.
        let least = random.pick(&[0, 0, kind::CONSTRUCTOR, kind::BRANCH]);
        let ranged: Vec<usize> = (0..length)
            .filter(|at| kind_of(workspace[*at]) >= least)
            .collect();
        let at = match ranged.is_empty() {
            true => random.below(length),
            false => random.pick(&ranged),
        };
        let word = changed_word(random, workspace[at]);
        let at = at as u32;
        composer.add(Operation::Store { side, at, word });
    }
}

/// Stores words that are no whole term from the start of a side.
fn store_faulty(random: &mut Random, composer: &mut Composer, side: Side) {
    let words = faulty_words(random, composer.machine.left.len().min(60));
    store_all(composer, side, words);
}

/// Stores words from the start of a side, as its term.
fn store_all(composer: &mut Composer, side: Side, words: Vec<u32>) {
    let length = words.len() as u32;
    for (at, word) in (0..).zip(words) {
        composer.add(Operation::Store { side, at, word });
    }
    match side {
        Side::Left => composer.lengths.0 = length,
        Side::Right => composer.lengths.1 = length,
    }
}

/// Numerals in every call, and all that they can be refused by.
fn numerals(random: &mut Random) -> Composer {
    let any = random.pick(&VERDICTS);
    let verdict = random.pick(&[any, any, Verdict::Full]);
    let trial = numeral_trial(random, Some(verdict));
    let mut composer = Composer::new(trial.capacity as u32, trial.capacity as u32);
    composer.load_trial(random, &trial);
    composer.show();
    composer.write(random, Side::Left);
    composer.write(random, Side::Right);
    let again = random.pick(&[Refusal::Value, Refusal::Structure]);
    for fault in [Refusal::Value, Refusal::Structure, again] {
        let side = any_side(random);
        let table = faulty_numeral(random, fault, trial.capacity);
        composer.add(Operation::Load { side, table });
    }
    composer.press(random.pick(&[1, 2, trial.budget]));
    composer.print();
    composer.press(trial.budget);
    composer.budget = trial.budget.min(FEW_ROUNDS);
    for _ in 0..2 {
        let side = any_side(random);
        store_numeral(random, &mut composer, side);
        composer.show();
        composer.write(random, side);
        composer.press(composer.budget);
    }
    composer.print();
    composer
}

/// Stores a numeral above its limit in place of a variable or numeral.
fn store_numeral(random: &mut Random, composer: &mut Composer, side: Side) {
    let length = composer.length(side) as usize;
    let words = &composer.workspace(side)[..length];
    let places: Vec<usize> = (0..length)
        .filter(|at| matches!(kind_of(words[*at]), kind::VARIABLE | kind::NUMERAL))
        .collect();
    if !places.is_empty() {
        let at = random.pick(&places) as u32;
        let word = wrong_numeral(random);
        composer.add(Operation::Store { side, at, word });
    }
}

/// Defaults in every call and with every verdict, and all that tag 0 can be
/// refused by.
fn defaults(random: &mut Random) -> Composer {
    let trial = moving(random, Verdict::Full);
    let capacity = trial.capacity;
    let mut composer = Composer::new(capacity as u32, capacity as u32);
    composer.load_trial(random, &trial);
    composer.show();
    composer.write(random, Side::Left);
    composer.press(random.pick(&[1, trial.budget, trial.budget, trial.budget]));
    composer.press(trial.budget);
    for fault in default::FAULTS {
        let side = any_side(random);
        let table = faulty_default(random, fault, capacity);
        composer.add(Operation::Load { side, table });
    }
    composer.print();
    for trial in [
        fitting(random, capacity, |random| moving(random, Verdict::Same)),
        fitting(random, capacity, |random| {
            moving(random, Verdict::Different)
        }),
        fitting(random, capacity, |random| moving(random, Verdict::Budget)),
        fitting(random, capacity, stuck_trial),
    ] {
        composer.load_trial(random, &trial);
        composer.show();
        composer.press(trial.budget);
        composer.write(random, Side::Right);
    }
    let side = any_side(random);
    for fault in default::FAULTS {
        let words = faulty_default_words(random, fault, capacity.min(60));
        store_all(&mut composer, side, words);
        composer.show();
        composer.write(random, side);
        composer.press(FEW_ROUNDS);
    }
    composer.print();
    composer
}

/// A trial with a default in front of a pair, and a contraction at least.
fn moving(random: &mut Random, verdict: Verdict) -> Trial {
    loop {
        let trial = default_trial(random, Some(verdict));
        let (left, right) = (trial.left.clone(), trial.right.clone());
        if rounds(left, right, trial.capacity, trial.budget).spent > 0 {
            return trial;
        }
    }
}

/// A trial that needs no longer workspaces.
fn fitting(random: &mut Random, capacity: usize, trial: impl Fn(&mut Random) -> Trial) -> Trial {
    loop {
        let trial = trial(random);
        if trial.capacity <= capacity {
            return trial;
        }
    }
}

/// Presses with the session's total around its limit.
fn session_limits(random: &mut Random) -> Composer {
    let trial = any_trial(random);
    let mut composer = Composer::new(trial.capacity as u32, trial.capacity as u32);
    composer.load_trial(random, &trial);
    let most = LARGEST_TOTAL as u32;
    for _ in 0..random.between(1, 4) {
        let room = random.pick(&[0, 1, 2, trial.budget]);
        let mut session = any_session(random);
        session.total = random.pick(&[most - room, most - room, most + 1, u32::MAX - room]);
        composer.add(Operation::SetSession(session));
        composer.press(random.pick(&[room, room.saturating_sub(1), room + 1, 0]));
        composer.print();
        composer.press(random.pick(&[0, 1]));
    }
    composer.print();
    composer
}

/// Terms written before and after presses, with right and wrong lengths; forms
/// shown, at the end some whose lengths are close.
fn writing(random: &mut Random) -> Composer {
    let trial = any_trial(random);
    let mut composer = Composer::new(trial.capacity as u32, trial.capacity as u32);
    composer.load_trial(random, &trial);
    for _ in 0..3 {
        composer.write(random, Side::Left);
        composer.write(random, Side::Right);
        composer.show();
        composer.press(random.pick(&[1, 2, trial.budget]));
    }
    composer.print();
    composer.show_beside(random, &trial.right);
    composer
}

/// Workspaces of all lengths, equal or not.
fn odd_workspaces(random: &mut Random) -> Composer {
    let (least, most) = (*WORKSPACE.start() as u32, *WORKSPACE.end() as u32);
    let wrong = wrong_capacity(random);
    let left = random.pick(&[least, most, wrong, wrong, wrong]);
    let right = random.pick(&[left, left, least, most, least + 1, wrong, wrong]);
    let mut composer = Composer::new(left, right);
    for _ in 0..2 {
        for side in [Side::Left, Side::Right] {
            let term = var(random.below(3) as u32);
            composer.load(random, side, &term);
        }
        let side = any_side(random);
        let fault = random.pick(&FAULTS);
        let table = faulty_table(random, &[fault], *WORKSPACE.start());
        composer.add(Operation::Load { side, table });
        composer.any_line(random);
        // Where a load was refused, a length is tried all the same.
        composer.lengths = (1, 1);
        any_call(random, &mut composer);
        composer.write(random, Side::Left);
        composer.write(random, Side::Right);
        composer.show();
        composer.press(1);
    }
    composer.print();
    composer
}

/// A pair of which at least one side is typed, in place of other words; then
/// presses, with other calls between.
fn typed_pairs(random: &mut Random) -> Composer {
    let any = random.pick(&VERDICTS);
    let verdict = random.pick(&[any, any, Verdict::Full]);
    let trial = plain_trial(random, Some(verdict));
    let mut composer = Composer::new(trial.capacity as u32, trial.capacity as u32);
    if random.percent(50) {
        composer.load_any(random);
        composer.store_behind(random);
    }
    let sides = [(Side::Left, &trial.left), (Side::Right, &trial.right)];
    let table = random.pick(&[None, None, Some(Side::Left), Some(Side::Right)]);
    for (side, term) in sides {
        match table == Some(side) {
            true => composer.load_table(random, side, term),
            false => composer.type_in(random, side, term),
        }
    }
    composer.budget = trial.budget;
    composer.press(random.pick(&[0, 1, trial.budget, trial.budget]));
    for _ in 0..random.between(1, 5) {
        any_call(random, &mut composer);
    }
    composer.print();
    composer
}

/// Lines of every kind, over words that have to stay or to become zeros.
fn every_line(random: &mut Random) -> Composer {
    let any = random.between(*WORKSPACE.start(), 200);
    let least = *WORKSPACE.start();
    let longest = *LINE.end();
    let capacity = random.pick(&[least, any, any, any, longest - 1, longest, *WORKSPACE.end()]);
    let mut composer = Composer::new(capacity as u32, capacity as u32);
    composer.load_any(random);
    composer.budget = FEW_ROUNDS;
    for _ in 0..random.between(10, 30) {
        if random.percent(20) {
            composer.store_behind(random);
        }
        composer.any_line(random);
        match random.below(12) {
            0..=2 => composer.print(),
            3 => composer.show(),
            4 => composer.press(random.pick(&[0, 1, FEW_ROUNDS])),
            5 => {
                let side = any_side(random);
                composer.write(random, side);
            }
            _ => {}
        }
    }
    composer.press(FEW_ROUNDS);
    composer.print();
    composer
}

/// A script that is cut short or goes on with words that are no operation.
fn broken_script(random: &mut Random, composer: Composer) -> Vec<u8> {
    let mut words = composer.words;
    let over = LONGEST_TABLE as u32 + 1;
    let large = random.pick(&[over, over + 3, 1 << 30, u32::MAX]);
    let end: Vec<u32> = match random.below(25) {
        0 => vec![0],
        1 => vec![11],
        2 => vec![random.pick(&[256 + 7, 1 << 31, u32::MAX])],
        3 => vec![1, random.pick(&[2, 3, u32::MAX]), 0],
        4 => vec![1, 0, large],
        5 => vec![2, large, 1, 1, 0],
        6 => vec![4, random.pick(&[2, u32::MAX]), 1, 8],
        7 => vec![4, 1, 1, large],
        8 => vec![5, 1, 1, 1, random.pick(&[4, 5, u32::MAX])],
        9 => vec![6, random.pick(&[2, 258]), 0, 0],
        10 => vec![8, random.pick(&[2, 3, u32::MAX]), 0],
        11 => vec![8, 0, large],
        12 => wrong_byte(random, &[8]),
        13 => vec![9, random.pick(&[2, 3, u32::MAX]), 4, 0],
        14 => vec![9, 0, 4, large],
        15 => wrong_byte(random, &[9, 4]),
        16 => vec![10, random.pick(&[2, 258, u32::MAX]), 1, 1],
        17 => vec![10, 1, 1, large],
        18 => {
            let any = random.below(words.len());
            words.truncate(random.pick(&[0, 1, any]));
            Vec::new()
        }
        19 | 20 => {
            words.extend(cut_operation(random));
            return bytes(&words);
        }
        _ => {
            let mut cut = bytes(&words);
            cut.truncate(random.below(cut.len()));
            return cut;
        }
    };
    words.extend(end);
    if random.percent(50) {
        words.push(7);
    }
    bytes(&words)
}

/// A line, or an encoding of so many bits, with a word that is no byte; cut to
/// eight bits it would be one.
fn wrong_byte(random: &mut Random, operation: &[u32]) -> Vec<u32> {
    let digit = u32::from(b'0');
    let count = random.between(1, 5);
    let side = random.below(2) as u32;
    let mut words = [&operation[..1], &[side], &operation[1..]].concat();
    words.push(count as u32);
    words.extend(vec![digit; count]);
    let at = words.len() - random.between(1, count);
    words[at] = random.pick(&[256, 256, 256 + digit, (1 << 16) + digit, u32::MAX]);
    words
}

/// The start of an operation that has more words.
fn cut_operation(random: &mut Random) -> Vec<u32> {
    let whole: [&[u32]; 9] = [
        &[1, 0, 4, 1, 1, 1, 0],
        &[2, 16, 1, 1, 0],
        &[3, 1, 1],
        &[4, 0, 1, 8],
        &[5, 0, 0, 0, 0],
        &[6, 0, 0, 0],
        &[8, 0, 3, 48, 32, 48],
        &[9, 0, 18, 3, 70, 134, 128],
        &[10, 0, 1, 8],
    ];
    let operation = random.pick(&whole);
    operation[..random.between(1, operation.len() - 1)].to_vec()
}

/// A long script, whose operations have many lengths; half of them break off.
fn long_script(random: &mut Random, mut composer: Composer) -> Vec<u8> {
    while composer.words.len() < LONG {
        let (side, at) = (any_side(random), u32::MAX);
        let operation = match random.below(11) {
            0 => Operation::Load {
                side,
                table: vec![2; random.below(LONGEST_TABLE + 1)],
            },
            1 => Operation::Show { lengths: (0, 0) },
            2 => Operation::SetSession(any_session(random)),
            3 => Operation::Line {
                side,
                line: vec![b'1'; random.below(LONGEST_TABLE + 1)],
            },
            4 => Operation::Import {
                side,
                count: 0,
                bytes: vec![1; random.below(LONGEST_TABLE + 1)],
            },
            5 => Operation::Export {
                side,
                length: 0,
                bytes: random.below(9),
            },
            _ => Operation::Store { side, at, word: 1 },
        };
        composer.add(operation);
    }
    composer.print();
    match random.percent(50) {
        true => broken_script(random, composer),
        false => bytes(&composer.words),
    }
}
