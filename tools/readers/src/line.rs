//! The lines on which the readers are compared.

use reference::generate::{line_damage, lines};
use reference::random::Random;

/// What lines are made of, each byte as often as short lines need it.
const ALPHABET: &[u8] = b"00112359\\\\()()    ";

/// A line for a workspace of `capacity` words; it depends on nothing but the seed and the case.
pub fn line(seed: u64, case: u64, capacity: usize) -> Vec<u8> {
    let mut random = Random::new(seed, case);
    let random = &mut random;
    match random.below(10) {
        0 => {
            let most = random.pick(&[4, 8, 16, 64]);
            let length = random.between(1, most);
            (0..length).map(|_| random.pick(ALPHABET)).collect()
        }
        1 => line_damage::short(random),
        2 => {
            let line = lines::accepted(random, capacity);
            line_damage::damaged(random, line)
        }
        3 => lines::accepted(random, capacity),
        _ => lines::any(random, capacity),
    }
}
