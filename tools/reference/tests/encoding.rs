//! Encodings and their terms; expectations follow from the rule for the bits.
//! Words are 8 times the index for a variable, 1 for an abstraction and 2 for an
//! application.

mod common;

use common::{carried, numbers, term, workspace};
use reference::encoding::{bits, bits_of, export, packed, term_of, Fault};
use reference::on_large_stack;
use reference::refusal::Refusal;
use reference::term::{abs, var};

/// The bits as bytes, zeros at the end, and their count.
fn encoding(text: &str) -> (Vec<u8>, u32) {
    let bytes = text.as_bytes().chunks(8).map(|part| {
        let place = |(at, bit): (usize, &u8)| u8::from(*bit == b'1') << (7 - at);
        part.iter().enumerate().map(place).sum()
    });
    (bytes.collect(), text.len() as u32)
}

/// Imports into a workspace of `capacity` words: zeros come after the words.
fn assert_gives(bytes: &[u8], count: u32, capacity: usize, words: &[u32]) {
    let mut all = words.to_vec();
    all.resize(capacity, 0);
    let expected = (Ok(words.len() as u32), all);
    assert_eq!(carried(bytes, count, capacity), expected, "{bytes:?}");
}

/// The encoding is refused, and every word stays.
fn assert_refused(bytes: &[u8], count: u32, capacity: usize, refusal: Refusal) {
    let expected = (Err(refusal), vec![77; capacity]);
    assert_eq!(
        carried(bytes, count, capacity),
        expected,
        "{bytes:?} {count}"
    );
}

fn assert_faulty(bytes: &[u8], count: u32, fault: Fault) {
    assert_refused(bytes, count, 64, Refusal::Bits);
    assert_eq!(term_of(bytes, count), Err(fault), "{bytes:?} {count}");
}

/// Exports from a workspace of `capacity` words that starts with the given ones.
fn exported(
    words: &[u32],
    length: u32,
    capacity: usize,
    bytes: usize,
) -> (Result<u32, Refusal>, Vec<u8>) {
    let mut encoding = vec![7; bytes];
    let answer = export(&workspace(words, capacity), length, &mut encoding);
    (answer, encoding)
}

/// Export is refused, and every byte stays.
fn assert_kept(words: &[u32], length: u32, capacity: usize, bytes: usize, refusal: Refusal) {
    let expected = (Err(refusal), vec![7; bytes]);
    assert_eq!(
        exported(words, length, capacity, bytes),
        expected,
        "{words:?}"
    );
}

/// Bits, the bytes that they fill, and the words of their term.
const ENCODINGS: [(&str, &[u8], &[u32]); 7] = [
    // \ 0
    ("0010", &[32], &[1, 0]),
    // K is \ \ 1.
    ("0000110", &[12], &[1, 1, 8]),
    // \ \ 0
    ("000010", &[8], &[1, 1, 0]),
    // S is \ \ \ 2 0 (1 0).
    (
        "00000001011110100111010",
        &[1, 122, 116],
        &[1, 1, 1, 2, 2, 16, 0, 2, 8, 0],
    ),
    // \ \ 1 (1 0) fills its bytes.
    ("0000011100111010", &[7, 58], &[1, 1, 2, 8, 2, 8, 0]),
    // (\ 0 0) (\ 0 0)
    (
        "010001101000011010",
        &[70, 134, 128],
        &[2, 1, 2, 0, 0, 1, 2, 0, 0],
    ),
    // \ \ \ \ \ \ 5: the run of six ones ends in the third byte.
    (
        "0000000000001111110",
        &[0, 15, 192],
        &[1, 1, 1, 1, 1, 1, 40],
    ),
];

#[test]
fn encodings_and_their_terms() {
    for (text, bytes, words) in ENCODINGS {
        let (packed, count) = encoding(text);
        assert_eq!(packed, bytes, "{text}");
        assert_gives(bytes, count, 16, words);
        assert_gives(bytes, count, 2_048, words);
        let spare = [bytes, &[0, 0, 0]].concat();
        assert_gives(&spare, count, 16, words);
        let length = words.len() as u32;
        assert_eq!(
            exported(words, length, 16, bytes.len()),
            (Ok(count), bytes.to_vec())
        );
        assert_eq!(
            exported(words, length, 16, spare.len()),
            (Ok(count), spare.clone())
        );
        let one_less = bytes.len() - 1;
        assert_kept(words, length, 16, one_less, Refusal::TooLong);
        assert_kept(words, length, 16, 0, Refusal::TooLong);
    }
}

#[test]
fn bits_and_bytes() {
    assert_eq!(bits(&[]), []);
    let ends = [true, false, false, false, false, false, false, true];
    assert_eq!(bits(&[129]), ends);
    assert_eq!(packed(&ends), [129]);
    assert_eq!(packed(&[]), []);
    assert_eq!(packed(&[false]), [0]);
    assert_eq!(packed(&[true, true, false]), [192]);
    assert_eq!(packed(&[&ends[..], &[true]].concat()), [129, 128]);
}

#[test]
fn only_three_kinds_have_bits() {
    // f0 and f1 (\ 0); f0 as argument of a constructor, as subject, numeral 0.
    let open = bits_of(&term(&[2, 8, 1, 0])).expect("a term of three kinds");
    assert_eq!(packed(&open), encoding("011100010").0);
    for words in [&[131][..], &[139, 0], &[4, 0], &[6]] {
        assert_eq!(bits_of(&term(words)), None, "{words:?}");
    }
}

/// Counts of bits and the bytes of which they are no encoding.
const FAULTY: [(Fault, &str); 4] = [
    // By one, by far, and by as much as would be four bits if a count were cut to 16.
    (
        Fault::Count,
        "1 of -; 4294967295 of -; 9 of 32; 2147483648 of 32; 17 of 7,58; 65540 of 32",
    ),
    // Nothing, \ 0 cut, runs without their zero, applications without their parts.
    (
        Fault::End,
        "0 of -; 0 of 0; 0 of 255; 3 of 32; 2 of 0; 8 of 0; 1 of 128; 16 of 255,255; 2 of 64; 6 of 72",
    ),
    // Behind \ 0 zeros or the same again, behind variable 0 a bit.
    (
        Fault::LeftOver,
        "5 of 32; 8 of 32; 9 of 32,0; 16 of 32,0; 8 of 34; 8 of 33; 3 of 128; 17 of 7,58,0",
    ),
    // The first bit past the count, the last one, one between, in each byte.
    (
        Fault::Padding,
        "4 of 40; 4 of 33; 4 of 36; 4 of 32,128; 4 of 32,1; 4 of 32,0,0,16; 16 of 7,58,128; 7 of 13",
    ),
];

#[test]
fn bits_that_are_no_encoding() {
    for (fault, list) in FAULTY {
        for faulty in list.split("; ") {
            let (count, bytes) = faulty.split_once(" of ").expect("a count");
            let bytes: Vec<u8> = numbers(bytes).iter().map(|byte| *byte as u8).collect();
            assert_faulty(&bytes, numbers(count)[0], fault);
        }
    }
    for (text, ..) in ENCODINGS {
        let (bytes, count) = encoding(&text[..text.len() - 1]);
        assert_faulty(&bytes, count, Fault::End);
        for bit in ["0", "1"] {
            let (bytes, count) = encoding(&format!("{text}{bit}"));
            assert_faulty(&bytes, count, Fault::LeftOver);
        }
    }
}

/// So many abstractions around a variable.
fn under(binders: usize, index: usize) -> String {
    "00".repeat(binders) + &"1".repeat(index + 1) + "0"
}

#[test]
fn terms_that_do_not_fit() {
    let (bytes, count) = encoding(&under(16, 0));
    assert_eq!((&bytes[..], count), (&[0, 0, 0, 0, 128][..], 34));
    assert_refused(&bytes, count, 16, Refusal::TooLong);
    let words = [&[1; 16][..], &[0]].concat();
    assert_gives(&bytes, count, 17, &words);
    let (bytes, count) = encoding(&under(15, 14));
    assert_gives(&bytes, count, 16, &[&[1; 15][..], &[112]].concat());
}

#[test]
fn terms_that_are_not_closed() {
    // f0, f1, \ 1 and \ \ 2.
    for text in ["10", "110", "00110", "00001110"] {
        let (bytes, count) = encoding(text);
        assert_refused(&bytes, count, 16, Refusal::NoEncoding);
    }
    // The binder is around the function only: (\ 0) 0.
    let (bytes, count) = encoding("01001010");
    assert_refused(&bytes, count, 16, Refusal::NoEncoding);
    // \ 0 (\ 1) is closed, \ 0 (\ 2) is not.
    let (bytes, count) = encoding("00011000110");
    assert_gives(&bytes, count, 16, &[1, 2, 0, 1, 8]);
    let (bytes, count) = encoding("000110001110");
    assert_refused(&bytes, count, 16, Refusal::NoEncoding);
}

#[test]
fn runs_of_every_length() {
    on_large_stack(|| {
        for binders in 1..=2_047 {
            let (bytes, count) = encoding(&under(binders, binders - 1));
            assert_eq!(count as usize, 3 * binders + 1);
            let words = [vec![1; binders], vec![8 * (binders as u32 - 1)]].concat();
            assert_gives(&bytes, count, 2_048, &words);
            let full = exported(&words, words.len() as u32, 2_048, bytes.len());
            assert_eq!(full, (Ok(count), bytes));
            let (bytes, count) = encoding(&under(binders, binders));
            assert_refused(&bytes, count, 2_048, Refusal::NoEncoding);
        }
    });
}

#[test]
fn runs_above_every_index() {
    // Cut to 8 or 16 bits these indices would be 0, which is bound.
    for index in [256, 65_536] {
        let (bytes, count) = encoding(&under(1, index));
        assert_refused(&bytes, count, 16, Refusal::NoEncoding);
        assert_eq!(term_of(&bytes, count), Ok(abs(var(index as u32))));
    }
    // The longest run that a script lends: 65,568 bits.
    let (bytes, count) = encoding(&("1".repeat(65_567) + "0"));
    assert_eq!((bytes.len(), count), (8_196, 65_568));
    assert_refused(&bytes, count, 16, Refusal::NoEncoding);
    assert_faulty(&[255; 8_196], 65_568, Fault::End);
}

#[test]
fn the_deepest_encodings() {
    on_large_stack(|| {
        // 32,783 abstractions and a variable, in 65,568 bits.
        let (bytes, count) = encoding(&under(32_783, 0));
        assert_eq!(count, 65_568);
        assert_refused(&bytes, count, 2_048, Refusal::TooLong);
        assert_faulty(&[0; 8_196], 65_568, Fault::End);
        // Applications alone.
        assert_faulty(&[0x55; 8_196], 65_568, Fault::End);
        // A left spine of 2,047 words under an abstraction.
        let spine = "00".to_string() + &"01".repeat(1_023) + &"10".repeat(1_024);
        let (bytes, count) = encoding(&spine);
        let words = [vec![1], vec![2; 1_023], vec![0; 1_024]].concat();
        assert_gives(&bytes, count, 2_048, &words);
        assert_refused(&bytes, count, 2_047, Refusal::TooLong);
        assert_eq!(
            exported(&words, 2_048, 2_048, bytes.len()),
            (Ok(count), bytes)
        );
    });
}

#[test]
fn the_order_of_the_checks_on_import() {
    // Seventeen words, the last one free.
    let both = under(16, 16);
    let (bytes, count) = encoding(&both);
    assert_refused(&bytes, count, 16, Refusal::TooLong);
    assert_refused(&bytes, count, 17, Refusal::NoEncoding);
    // 12 before both, by each fault.
    for capacity in [16, 17] {
        let (over, more) = encoding(&format!("{both}0"));
        assert_refused(&over, more, capacity, Refusal::Bits);
        assert_refused(&bytes, count - 1, capacity, Refusal::Bits);
        assert_refused(&bytes, 8 * bytes.len() as u32 + 1, capacity, Refusal::Bits);
        let broken = [&bytes[..], &[1]].concat();
        assert_refused(&broken, count, capacity, Refusal::Bits);
    }
    // 7 before all.
    for capacity in [0, 1, 15, 2_049] {
        for (bytes, count) in [
            (&[32][..], 4),
            (&[], 0),
            (&[32], 5),
            (&[32], 9),
            (&[33], 4),
            (&[128], 2),
            (&bytes, count),
        ] {
            assert_refused(bytes, count, capacity, Refusal::Workspace);
        }
    }
}

#[test]
fn lengths_that_are_no_terms() {
    let identity = [1, 0];
    for length in [0, 1, 3, 17, 2_049, u32::MAX] {
        assert_kept(&identity, length, 16, 4, Refusal::NotATerm);
    }
    // An abstraction with a payload, kind 7, a free number above its limit.
    for words in [&[9, 0][..], &[1, 7], &[1, 8 * 257]] {
        assert_kept(words, 2, 16, 4, Refusal::NotATerm);
    }
}

#[test]
fn terms_that_have_no_encoding() {
    for words in [
        // Free variables: f0, \ f0, (\ 0) f0, \ f255.
        &[0][..],
        &[1, 8],
        &[2, 1, 0, 0],
        &[1, 8 * 256],
        // Closed, with a constructor, a case, a numeral.
        &[131],
        &[1, 139, 0],
        &[2, 1, 0, 131],
        &[1, 4, 0],
        &[12, 1, 0, 141, 0],
        &[12, 1, 0, 5, 1, 0],
        &[6],
        &[1, 2, 0, 14],
    ] {
        let length = words.len() as u32;
        for bytes in [0, 1, 100] {
            assert_kept(words, length, 16, bytes, Refusal::NoEncoding);
        }
    }
}

#[test]
fn the_order_of_the_checks_on_export() {
    // 13 before 8 stands above; 10 before 13 and 8.
    assert_kept(&[131], 2, 16, 0, Refusal::NotATerm);
    assert_kept(&[139, 0], 1, 16, 0, Refusal::NotATerm);
    assert_kept(&[0], 0, 16, 0, Refusal::NotATerm);
    // 7 before all.
    for capacity in [2, 15, 2_049] {
        for (words, length) in [(&[1, 0][..], 2), (&[1, 0], 0), (&[1, 0], 3), (&[6], 1)] {
            for bytes in [0, 1] {
                assert_kept(words, length, capacity, bytes, Refusal::Workspace);
            }
        }
    }
}

#[test]
fn words_behind_the_term_do_not_matter() {
    let (answer, encoding) = exported(&[1, 0, 131, 6, 0], 2, 16, 2);
    assert_eq!((answer, encoding), (Ok(4), vec![32, 0]));
}

#[test]
fn import_and_export_undo_each_other() {
    // Every encoding of at most fifteen bits.
    for count in 0..=15 {
        for value in 0..1_u16 << count {
            let bytes = (u32::from(value) << (16 - count)).to_be_bytes();
            let bytes = &bytes[2..2 + (count as usize).div_ceil(8)];
            if let (Ok(length), workspace) = carried(bytes, count, 16) {
                let mut again = vec![7; bytes.len()];
                assert_eq!(export(&workspace, length, &mut again), Ok(count));
                assert_eq!(again, bytes);
            }
        }
    }
}

#[test]
fn encodings_of_few_bits() {
    // Closed terms of so many bits; none has five: \ 0 has four, \ \ 0 six,
    // \ \ 1 seven, \ \ \ 0 and \ 0 0 eight.
    let closed = |count: u32| {
        let accepted = |value: &u32| {
            let bytes = (value << (8 - count)) as u8;
            carried(&[bytes], count, 16).0.is_ok()
        };
        (0..1 << count).filter(accepted).count()
    };
    let counts: Vec<usize> = (1..=8).map(closed).collect();
    assert_eq!(counts, [0, 0, 0, 1, 0, 1, 1, 2]);
}
