//! The peers of `verdict` against the reference, on generated inputs: every verdict, every
//! refusal, every order of two refusals, every break of the bytes.

use bench::peers::{flat, graph};
use reference::generate::inputs;
use reference::on_large_stack;
use reference::term::WORKSPACE;
use reference::verdict::outcome;

const CASES: u64 = 3_000;
const SEED: u64 = 1;

/// Both peers print the reference's line.
fn agree(input: &[u8], case: &str) {
    let expected = outcome(input).to_string();
    for line in [flat::line, graph::line] {
        assert_eq!(line(input), expected.trim_end(), "{case}");
    }
}

#[test]
fn inputs_of_every_kind() {
    on_large_stack(|| {
        for case in 0..CASES {
            let input = inputs::input(SEED, case);
            agree(&input, &format!("case {case} of seed {SEED}"));
        }
    });
}

#[test]
fn workspaces_of_every_length() {
    on_large_stack(|| {
        for capacity in WORKSPACE {
            let input = inputs::in_length(SEED, capacity);
            agree(&input, &format!("{capacity} words"));
        }
    });
}
