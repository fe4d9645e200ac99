//! The peer that reads lines against the reference.

use bench::peers::descent::transcript;
use reference::generate::lines;
use reference::random::Random;
use reference::{on_large_stack, replay};

const LINE: u32 = 8;
const CASES: u64 = 3_000;

/// A script that reads one line into a workspace of so many words, on the left or on the right.
fn script(capacity: u32, side: u32, line: &[u8]) -> Vec<u8> {
    let mut words = vec![capacity, capacity, LINE, side, line.len() as u32];
    words.extend(line.iter().map(|byte| u32::from(*byte)));
    words.into_iter().flat_map(u32::to_le_bytes).collect()
}

#[test]
fn lines_of_every_kind() {
    on_large_stack(|| {
        for case in 0..CASES {
            let mut random = Random::new(1, case);
            let capacity = random.pick(&[15, 16, 40, 300, 2_048, 2_049]);
            let line = lines::any(&mut random, capacity.clamp(16, 2_048));
            let script = script(capacity as u32, case as u32 % 2, &line);
            let expected = replay::run(&script).text;
            assert_eq!(transcript(&script), expected, "{}", line.escape_ascii());
        }
    });
}

#[test]
fn scripts_that_break_off() {
    let whole = script(16, 0, b"0");
    assert_eq!(transcript(&whole), "line 1\n");
    assert_eq!(transcript(&whole[..8]), "");
    for length in [0, 4, 12, 16, 20] {
        assert_eq!(transcript(&whole[..length]), "Script\n", "{length}");
    }
    assert_eq!(transcript(&script(16, 2, b"0")), "Script\n");
    let twice = [&whole[..], &whole[8..]].concat();
    assert_eq!(transcript(&twice), "line 1\nline 1\n");
}
