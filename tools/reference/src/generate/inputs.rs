//! Inputs for the verdict program.

use crate::default::{self, Fault, Role};
use crate::generate::damage::{faulty_default, faulty_numeral, faulty_table, FAULTS};
use crate::generate::pairs::{
    default_trial, long_run, numeral_trial, stuck_trial, trial, trial_in, Trial,
};
use crate::generate::tables::{term_table, Order};
use crate::input::bytes;
use crate::part::{self, Part};
use crate::press::{Verdict, LARGEST_BUDGET};
use crate::random::Random;
use crate::refusal::Refusal;
use crate::table::LONGEST_TABLE;
use crate::term::WORKSPACE;
use crate::verdict::{outcome, Outcome, Request};

/// What an input is made for.
#[derive(Clone, Copy, Debug, PartialEq, Eq)]
pub enum Aim {
    Verdict(Verdict),
    Refused(Refusal),
    /// A part that a numeral has in the outcome.
    Numeral(Part),
    /// A part that a default or tag 0 has in the outcome.
    Default(Role),
    Input,
    /// Several faults at once, or none.
    Mixed,
}

/// The aims of a run, each with its share of [`CYCLE`] cases; those with one
/// outcome stand together.
const AIMS: [(Aim, u64); 25] = [
    (Aim::Verdict(Verdict::Same), 1),
    (Aim::Default(Role::Taken(Verdict::Same)), 4),
    (Aim::Verdict(Verdict::Different), 10),
    (Aim::Default(Role::AnotherCount), 2),
    (Aim::Verdict(Verdict::Budget), 2),
    (Aim::Default(Role::Taken(Verdict::Budget)), 4),
    (Aim::Verdict(Verdict::Full), 2),
    (Aim::Numeral(Part::Full), 4),
    (Aim::Default(Role::Taken(Verdict::Full)), 4),
    (Aim::Refused(Refusal::TableLength), 5),
    (Aim::Refused(Refusal::Header), 5),
    (Aim::Refused(Refusal::Value), 1),
    (Aim::Numeral(Part::Value), 4),
    (Aim::Default(Role::Load(Fault::Binds)), 4),
    (Aim::Default(Role::Load(Fault::Constructor)), 4),
    (Aim::Refused(Refusal::Link), 5),
    (Aim::Refused(Refusal::Structure), 1),
    (Aim::Numeral(Part::Children), 4),
    (Aim::Default(Role::Load(Fault::Place)), 4),
    (Aim::Refused(Refusal::FreeNumber), 5),
    (Aim::Refused(Refusal::Workspace), 5),
    (Aim::Refused(Refusal::TooLong), 5),
    (Aim::Refused(Refusal::Budget), 5),
    (Aim::Input, 5),
    (Aim::Mixed, 5),
];

/// The sum of the shares.
const CYCLE: u64 = 100;
/// How far from one another neighbouring cases stand among the shares. It has
/// no divisor in common with their sum, so each has its turn.
const STRIDE: u64 = 61;

/// The aim of one case of a run.
pub fn aim(case: u64) -> Aim {
    let place = STRIDE * (case % CYCLE) % CYCLE;
    let mut end = 0;
    let mut aims = AIMS.iter();
    let found = aims.find(|(_, share)| {
        end += share;
        place < end
    });
    found.expect("no place is beyond the shares").0
}

/// Tries to meet an aim before any input is taken.
const TRIES: usize = 80;
/// One of so many trials for Budget is a long run.
const LONG_RUNS: usize = 120;

/// The input of one case of a run.
pub fn input(seed: u64, case: u64) -> Vec<u8> {
    aimed(&mut Random::new(seed, case), aim(case))
}

/// An input that is not refused, with workspaces of this length.
pub fn in_length(seed: u64, capacity: usize) -> Vec<u8> {
    let mut random = Random::new(!seed, capacity as u64);
    let trial = trial_in(&mut random, capacity);
    encoded(&request(&mut random, &trial))
}

/// An input whose outcome is the aim.
pub fn aimed(random: &mut Random, aim: Aim) -> Vec<u8> {
    let mut input = Vec::new();
    for _ in 0..TRIES {
        input = attempt(random, aim);
        if aim.is_met(&input) {
            break;
        }
    }
    input
}

impl Aim {
    pub fn is_met(self, input: &[u8]) -> bool {
        match (self, outcome(input)) {
            (Aim::Verdict(verdict), Outcome::Answered(answer)) => answer.verdict == verdict,
            (Aim::Refused(refusal), Outcome::Refused(number)) => refusal == number,
            (Aim::Numeral(part), _) => part::of_input(input).contains(&part),
            (Aim::Default(role), _) => default::of_input(input).contains(&role),
            (Aim::Input, outcome) => outcome == Outcome::Input,
            (Aim::Mixed, _) => true,
            _ => false,
        }
    }
}

fn attempt(random: &mut Random, aim: Aim) -> Vec<u8> {
    let trial = trial_for(random, aim);
    let mut request = request(random, &trial);
    match aim {
        Aim::Default(Role::Load(fault)) => {
            let table = faulty_default(random, fault, request.capacity as usize);
            *side(random, &mut request) = table;
        }
        Aim::Verdict(_) | Aim::Numeral(Part::Full) | Aim::Default(_) => {}
        Aim::Refused(Refusal::Workspace) => request.capacity = wrong_capacity(random),
        Aim::Refused(Refusal::Budget) => request.budget = wrong_budget(random),
        Aim::Refused(refusal) => {
            request.capacity = room_for(random, refusal, request.capacity);
            let table = faulty_table(random, &[refusal], request.capacity as usize);
            *side(random, &mut request) = table;
        }
        Aim::Numeral(part) => {
            let fault = match part {
                Part::Value => Refusal::Value,
                _ => Refusal::Structure,
            };
            let table = faulty_numeral(random, fault, request.capacity as usize);
            *side(random, &mut request) = table;
        }
        Aim::Input => return broken_bytes(random, request),
        Aim::Mixed => mix(random, &mut request),
    }
    encoded(&request)
}

/// A trial that is likely to meet the aim, if its verdict can.
fn trial_for(random: &mut Random, aim: Aim) -> Trial {
    match aim {
        Aim::Verdict(Verdict::Budget) if random.below(LONG_RUNS) == 0 => long_run(random),
        Aim::Verdict(verdict) => trial(random, Some(verdict)),
        Aim::Numeral(Part::Full) => numeral_trial(random, Some(Verdict::Full)),
        Aim::Default(Role::Taken(verdict)) => default_trial(random, Some(verdict)),
        Aim::Default(Role::AnotherCount) => stuck_trial(random),
        _ => trial(random, None),
    }
}

/// A workspace length for which every fault of the refusal is possible.
fn room_for(random: &mut Random, refusal: Refusal, capacity: u32) -> u32 {
    match refusal {
        Refusal::TooLong => {
            let most = *WORKSPACE.end() as u32 - 1;
            let near = capacity.min(most);
            random.pick(&[near, near, near, most])
        }
        Refusal::Structure => capacity.max(random.pick(&[16, 80])),
        _ => capacity,
    }
}

fn side<'a>(random: &mut Random, request: &'a mut Request) -> &'a mut Vec<u32> {
    if random.percent(50) {
        &mut request.left
    } else {
        &mut request.right
    }
}

/// The request of a trial, with tables in some order.
fn request(random: &mut Random, trial: &Trial) -> Request {
    let orders = (Order::random(random), Order::random(random));
    Request {
        budget: trial.budget,
        capacity: trial.capacity as u32,
        left: term_table(random, &trial.left, orders.0),
        right: term_table(random, &trial.right, orders.1),
    }
}

/// Lengths that no workspace has.
pub fn wrong_capacity(random: &mut Random) -> u32 {
    let (least, most) = (*WORKSPACE.start() as u32, *WORKSPACE.end() as u32);
    let near = random.pick(&[least - 1, most + 1]);
    let small = random.below(WORKSPACE.start() - 1) as u32;
    // The last ones fall back to a length when cut to fewer bits.
    let large = random.pick(&[most + 2, u32::MAX, (1 << 16) + 64, (1 << 31) + 64]);
    random.pick(&[near, near, small, large])
}

/// Budgets above the limit.
pub fn wrong_budget(random: &mut Random) -> u32 {
    let least = LARGEST_BUDGET + 1;
    random.pick(&[least, least, least + 1, 1 << 31, u32::MAX])
}

/// Up to two faults on each side, wrong words, budgets and lengths at once.
fn mix(random: &mut Random, request: &mut Request) {
    for turn in 0..2 {
        let room = (request.capacity as usize).min(*WORKSPACE.end() - 1);
        let faults = [random.pick(&FAULTS), random.pick(&FAULTS)];
        let mut table = match random.below(4) {
            0 => continue,
            1 => faulty_table(random, &faults[..1], room),
            2 => faulty_table(random, &faults, room),
            _ => [&request.left, &request.right][turn].clone(),
        };
        if random.percent(50) {
            flip_words(random, &mut table);
        }
        *[&mut request.left, &mut request.right][turn] = table;
    }
    if random.percent(10) {
        request.capacity = wrong_capacity(random);
    }
    if random.percent(10) {
        request.budget = wrong_budget(random);
    }
}

/// Changes a few words of a table to near or far ones.
fn flip_words(random: &mut Random, table: &mut [u32]) {
    for _ in 0..random.between(1, 3) {
        if table.is_empty() {
            return;
        }
        let at = random.below(table.len());
        let near = random.below(table.len() / 4 + 2) as u32;
        let flipped = table[at] ^ (1 << random.below(32));
        let more = table[at].wrapping_add(1);
        let less = table[at].wrapping_sub(1);
        let any = random.word();
        table[at] = random.pick(&[near, near, flipped, more, less, any]);
    }
}

fn encoded(request: &Request) -> Vec<u8> {
    let mut words = vec![request.budget, request.capacity];
    for table in [&request.left, &request.right] {
        words.push(table.len() as u32);
        words.extend(table);
    }
    bytes(&words)
}

/// Bytes that are most often not laid out as an input.
fn broken_bytes(random: &mut Random, mut request: Request) -> Vec<u8> {
    let longer = random.pick(&[LONGEST_TABLE + 1, LONGEST_TABLE + 4]);
    match random.below(12) {
        0 => return Vec::new(),
        1 => return (0..random.below(80)).map(|_| random.word() as u8).collect(),
        2 => request.left.resize(longer, 0),
        3 => request.right.resize(longer, 0),
        4 => {
            request.left.resize(LONGEST_TABLE, 0);
            request.right.resize(LONGEST_TABLE, 0);
        }
        _ => {}
    }
    let mut bytes = encoded(&request);
    let is_longer = request.left.len().max(request.right.len()) > LONGEST_TABLE;
    if is_longer && random.percent(50) {
        return bytes;
    }
    let right_count = LEFT_COUNT + 4 * (request.left.len() + 1);
    match random.below(6) {
        0 => {
            let end = random.pick(&[bytes.len(), right_count, right_count + 4]);
            bytes.truncate(end - random.between(1, 7));
        }
        1 => bytes.truncate(random.below(bytes.len())),
        2 => bytes.truncate(4 * random.below(bytes.len() / 4)),
        3 => bytes.extend(vec![0; random.between(1, 8)]),
        4 => bytes.extend(bytes.clone()),
        _ => break_count(random, &mut bytes, [LEFT_COUNT, right_count]),
    }
    bytes
}

/// Where the count of the left table stands, in bytes.
const LEFT_COUNT: usize = 8;

/// Changes one of the counts, which stand at these places, to another.
fn break_count(random: &mut Random, bytes: &mut [u8], places: [usize; 2]) {
    let place = random.pick(&places);
    let count = &mut bytes[place..place + 4];
    let actual = u32::from_le_bytes([count[0], count[1], count[2], count[3]]);
    let wrong = random.pick(&[
        actual + 1,
        actual.wrapping_sub(1),
        actual + (1 << 30),
        actual + (1 << 31),
        LONGEST_TABLE as u32 + 1,
        u32::MAX,
    ]);
    count.copy_from_slice(&wrong.to_le_bytes());
}
