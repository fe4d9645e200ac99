//! The peer that imports and exports encodings: answers worked out by hand, and the reference.

use bench::peers::bitwise::{export, import, transcript};
use reference::encoding::term_of;
use reference::exchange::OTHERS;
use reference::generate::damage::{changed_word, faulty_words};
use reference::generate::encodings::{self, without_encoding, Encoding};
use reference::random::Random;
use reference::words::words;
use reference::{on_large_stack, replay};

const STORE: u32 = 6;
const IMPORT: u32 = 9;
const EXPORT: u32 = 10;
const CASES: u64 = 3_000;

/// The bits as bytes, zeros at the end.
fn packed(bits: &str) -> Vec<u8> {
    let byte = |bits: &[u8]| {
        let places = (0..8).rev().zip(bits);
        places.map(|(place, bit)| (bit - b'0') << place).sum()
    };
    bits.as_bytes().chunks(8).map(byte).collect()
}

/// Imports bits into a workspace of 7s: the answer and the workspace.
fn imported(bytes: &[u8], bits: usize, capacity: usize) -> (Result<usize, u32>, Vec<u32>) {
    let mut workspace = vec![7; capacity];
    let answer = import(bytes, bits, &mut workspace);
    (answer, workspace)
}

/// Exports words at the start of a workspace into bytes of 7s: the answer and the bytes.
fn exported(
    words: &[u32],
    length: usize,
    capacity: usize,
    count: usize,
) -> (Result<usize, u32>, Vec<u8>) {
    let mut workspace = words.to_vec();
    workspace.resize(capacity, 7);
    let mut bytes = vec![7; count];
    let answer = export(&workspace, length, &mut bytes);
    (answer, bytes)
}

/// `0010` is \0, `0000110` K, and S is \\\2 0 (1 0).
#[test]
fn encodings_and_their_words() {
    for (bits, words) in [
        ("0010", &[1, 0][..]),
        ("0000110", &[1, 1, 8]),
        ("00000010", &[1, 1, 1, 0]),
        ("000000110", &[1, 1, 1, 8]),
        ("00000001011110100111010", &[1, 1, 1, 2, 2, 16, 0, 2, 8, 0]),
        ("0100100000110", &[2, 1, 0, 1, 1, 8]),
    ] {
        let (length, bytes) = (words.len(), packed(bits));
        let filled = [words, &vec![0; 16 - length]].concat();
        let spare = [&bytes[..], &[0, 0]].concat();
        for bytes in [&bytes, &spare] {
            let answer = imported(bytes, bits.len(), 16);
            assert_eq!(answer, (Ok(length), filled.clone()), "{bits}");
            let answer = exported(words, length, 16, bytes.len());
            assert_eq!(answer, (Ok(bits.len()), bytes.clone()), "{bits}");
        }
        let fewer = bytes.len() - 1;
        let answer = exported(words, length, 16, fewer);
        assert_eq!(answer, (Err(8), vec![7; fewer]), "{bits}");
    }
}

fn bytes(words: &[u32]) -> Vec<u8> {
    words.iter().flat_map(|word| word.to_le_bytes()).collect()
}

/// The words of an import.
fn import_of(side: u32, encoding: &Encoding) -> Vec<u32> {
    let mut words = vec![IMPORT, side, encoding.count, encoding.bytes.len() as u32];
    words.extend(encoding.bytes.iter().map(|byte| u32::from(*byte)));
    words
}

/// The words that store others at the start of a side's workspace.
fn stores(side: u32, words: &[u32]) -> Vec<u32> {
    let store = |(at, word): (usize, &u32)| [STORE, side, at as u32, *word];
    words.iter().enumerate().flat_map(store).collect()
}

fn agrees(words: &[u32]) {
    let script = bytes(words);
    assert_eq!(transcript(&script), replay::run(&script).text, "{words:?}");
}

#[test]
fn encodings_of_every_kind() {
    on_large_stack(|| {
        for case in 0..CASES {
            let mut random = Random::new(1, case);
            let capacity = random.pick(&[15, 16, 40, 300, 2_048, 2_049]);
            let side = case as u32 % 2;
            let encoding = encodings::any(&mut random, capacity.clamp(16, 2_048));
            let term = term_of(&encoding.bytes, encoding.count);
            let length = term.map_or(2, |term| term.size() as u32);
            let again = [EXPORT, side, length, encoding.bytes.len() as u32];
            let script = [
                vec![capacity as u32; 2],
                import_of(side, &encoding),
                again.into(),
            ];
            agrees(&script.concat());
        }
    });
}

#[test]
fn terms_of_every_kind() {
    on_large_stack(|| {
        for case in 0..CASES {
            let mut random = Random::new(2, case);
            let capacity = random.pick(&[15, 16, 40, 300, 2_048, 2_049]);
            let most = capacity.clamp(16, 2_048);
            let other = random.pick(&OTHERS);
            let mut term = match random.below(4) {
                0 => faulty_words(&mut random, most),
                1 => words(&without_encoding(&mut random, other, most)),
                _ => words(&encodings::any_closed(&mut random, most)),
            };
            if random.percent(20) {
                let at = random.below(term.len());
                term[at] = changed_word(&mut random, term[at]);
            }
            let length = term.len() as u32;
            let length = random.pick(&[length, length, length, length + 1, length - 1, 0]);
            let count = random.pick(&[8_196, 600, 100, term.len(), term.len() / 3]) as u32;
            let side = case as u32 % 2;
            let script = [
                vec![capacity as u32; 2],
                stores(side, &term),
                vec![EXPORT, side, length, count],
            ];
            agrees(&script.concat());
        }
    });
}

#[test]
fn scripts_that_break_off() {
    // \0, stored, exported, imported and exported.
    let whole = [
        vec![16, 16],
        stores(1, &[1, 0]),
        vec![EXPORT, 1, 2, 2, IMPORT, 0, 4, 1, 32, EXPORT, 0, 2, 1],
    ]
    .concat();
    let lines = "store\nstore\nexport 4 32 0\nimport 2\nexport 4 32\n";
    let script = bytes(&whole);
    assert_eq!(transcript(&script), lines);
    for length in 0..script.len() {
        let part = &script[..length];
        assert_eq!(transcript(part), replay::run(part).text, "{length}");
    }
    // A store outside, a side above 1, a byte above 255, a count above 8,196, an unknown operation.
    for broken in [
        &[STORE, 0, 16, 1][..],
        &[STORE, 2, 0, 1],
        &[IMPORT, 0, 4, 1, 256],
        &[EXPORT, 0, 2, 8_196],
        &[EXPORT, 0, 2, 8_197],
        &[11],
    ] {
        agrees(&[&whole, broken].concat());
    }
}
