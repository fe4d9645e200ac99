//! Lines of text and the terms that they give; expectations follow from the
//! grammar. Words are 8 times the index for a variable, 1 for an abstraction
//! and 2 for an application.

mod common;

use common::{numbers, typed};
use reference::line::{term_of, Fault};
use reference::refusal::Refusal;

/// The line gives the words, with zeros after them.
fn assert_gives(line: &str, words: &[u32]) {
    let mut all = words.to_vec();
    all.resize(64, 0);
    let length = words.len() as u32;
    assert_eq!(typed(line.as_bytes(), 64), (Ok(length), all), "{line}");
}

/// The line is refused, and every word stays.
fn assert_refused(line: &[u8], capacity: usize, refusal: Refusal) {
    let expected = (Err(refusal), vec![77; capacity]);
    let shown = String::from_utf8_lossy(line).into_owned();
    assert_eq!(typed(line, capacity), expected, "{shown:?}");
}

fn assert_outside(line: &[u8], fault: Fault) {
    assert_refused(line, 64, Refusal::Line);
    let shown = String::from_utf8_lossy(line).into_owned();
    assert_eq!(term_of(line), Err(fault), "{shown:?}");
}

#[test]
fn lines_and_their_words() {
    for (line, words) in [
        ("10", "80"),
        ("255", "2040"),
        // Application groups to the left.
        ("0 1 2 3", "2,2,2,0,8,16,24"),
        ("0 (1 2) 3", "2,2,0,2,8,16,24"),
        ("0 (1 (2 3))", "2,0,2,8,2,16,24"),
        // A body reaches as far right as it can.
        ("\\0 1", "1,2,0,8"),
        ("\\(\\1) 0", "1,2,1,8,0"),
        ("(\\0 1) 2", "2,1,2,0,8,16"),
        ("(\\\\1) 0 1", "2,2,1,1,8,0,8"),
        // An abstraction is a last item.
        ("0 \\0 1", "2,0,1,2,0,8"),
        ("0 \\1 \\2 3", "2,0,1,2,8,1,2,16,24"),
        ("(0 \\0) 1", "2,2,0,1,0,8"),
        // Parentheses that are not needed.
        ("(((\\(0))))", "1,0"),
        ("((0) (1)) ((2))", "2,2,0,8,16"),
    ] {
        assert_gives(line, &numbers(words));
    }
}

#[test]
fn outside_by_length() {
    assert_outside(b"", Fault::Length);
    assert_outside(&[b'\\'; 1_025], Fault::Length);
    assert_outside(&[b'0'; 8_196], Fault::Length);
}

/// Abstractions around index 0, of so many bytes.
fn abstractions(bytes: usize) -> Vec<u8> {
    let mut line = vec![b'\\'; bytes - 1];
    line.push(b'0');
    line
}

#[test]
fn the_longest_lines() {
    let (answer, words) = typed(&abstractions(1_024), 1_024);
    assert_eq!(answer, Ok(1_024));
    assert_eq!(words, [vec![1; 1_023], vec![0]].concat());
    assert_refused(&abstractions(1_024), 1_023, Refusal::TooLong);
    assert_refused(&abstractions(1_025), 2_048, Refusal::Line);
    // 512 items and a space less: 1,023 bytes and words.
    let spine = vec!["1"; 512].join(" ");
    assert_eq!(typed(spine.as_bytes(), 2_048).0, Ok(1_023));
    let longer = format!("\\{spine}");
    assert_eq!(typed(longer.as_bytes(), 2_048).0, Ok(1_024));
    let too_long = format!("10{}", &spine[1..]) + "2";
    assert_refused(too_long.as_bytes(), 2_048, Refusal::Line);
    // As deep as parentheses go: 511 around 2 bytes, or 512 around one.
    let nested = |count, inside: &str| "(".repeat(count) + inside + &")".repeat(count);
    assert_eq!(typed(nested(511, "10").as_bytes(), 16).0, Ok(1));
    assert_refused(nested(512, "1").as_bytes(), 16, Refusal::Line);
}

/// What is outside the grammar, and by what at the first place where something is.
const OUTSIDE: [(Fault, &[&str]); 4] = [
    // One too many, at the ends, in a row and inside, or one missing between two items.
    (
        Fault::Space,
        &[
            " ", " 0", "0 ", "0  1", "\\ 0", "( 0)", "(0 )", "0 1 ", "0 )", "(0 ", "0 \\ 0",
            " (0)", "0\\0", "(0)1", "0(1)", "(0)(1)", "(0)\\0", "0 1(2)",
        ],
    ),
    (
        Fault::Parenthesis,
        &["(0", "0)", "((0)", "(0))", "0 (1", "\\(0", "(0 1"],
    ),
    (
        Fault::Item,
        &[
            "()", "\\", "(", ")", ")(", "(\\)", "\\\\", "0 ()", "0 \\", "() 0", "\\()",
        ],
    ),
    (
        Fault::Number,
        &[
            "00",
            "01",
            "007",
            "0 01",
            "\\00",
            "32768",
            "032767",
            "65536",
            "99999",
            "4294967296",
            "99999999999",
            "18446744073709551616",
        ],
    ),
];

#[test]
fn lines_outside_the_grammar() {
    for (fault, lines) in OUTSIDE {
        for line in lines {
            assert_outside(line.as_bytes(), fault);
        }
    }
    assert_outside(&[b'1'; 1_024], Fault::Number);
    assert_outside(&[b'0'; 1_024], Fault::Number);
}

#[test]
fn outside_by_a_byte() {
    for byte in 0..=255 {
        let of_the_alphabet = b"0123456789\\() ".contains(&byte);
        let faults = [
            term_of(&[byte]).err(),
            term_of(&[b'0', byte]).err(),
            term_of(&[b'0', b' ', byte]).err(),
        ];
        for fault in faults {
            assert_eq!(fault == Some(Fault::Byte), !of_the_alphabet, "{byte}");
        }
    }
    for line in [
        &b"0\t1"[..],
        b"0\n",
        b"\n0",
        b"\x000",
        b"0\xff",
        b"-1",
        b"0.1",
    ] {
        assert_outside(line, Fault::Byte);
    }
}

#[test]
fn free_numbers() {
    assert_refused(b"256", 16, Refusal::FreeNumber);
    assert_refused(b"32767", 16, Refusal::FreeNumber);
    assert_refused(b"0 (1 256)", 16, Refusal::FreeNumber);
    // Under two binders 257 is free number 255.
    assert_gives("\\\\257", &[1, 1, 2_056]);
    assert_refused(b"\\\\258", 16, Refusal::FreeNumber);
    // The binder is not around the second index.
    assert_gives("(\\256) 255", &[2, 1, 2_048, 2_040]);
    assert_refused(b"(\\256) 256", 16, Refusal::FreeNumber);
    assert_gives("255 \\256", &[2, 2_040, 1, 2_048]);
}

#[test]
fn the_largest_index_in_a_line_is_free() {
    // A backslash is a byte, so that 1,019 binders are around five digits.
    let most = |index: &str| [vec![b'\\'; 1_024 - index.len()], index.into()].concat();
    assert_refused(&most("32767"), 2_048, Refusal::FreeNumber);
    assert_refused(&most("32768"), 2_048, Refusal::Line);
    // 1,020 binders: indices up to 1,019 are bound, up to 1,275 allowed.
    let (answer, words) = typed(&most("1275"), 2_048);
    assert_eq!((answer, words[1_020]), (Ok(1_021), 10_200));
    assert_refused(&most("1276"), 2_048, Refusal::FreeNumber);
}

#[test]
fn terms_that_do_not_fit() {
    // Eight variables and seven applications.
    let spine = "0 0 0 0 0 0 0 0";
    assert_eq!(typed(spine.as_bytes(), 16).0, Ok(15));
    let full = format!("\\{spine}");
    assert_eq!(typed(full.as_bytes(), 16).0, Ok(16));
    let longer = format!("\\\\{spine}");
    assert_refused(longer.as_bytes(), 16, Refusal::TooLong);
    assert_eq!(typed(longer.as_bytes(), 17).0, Ok(17));
    // Parentheses are no words.
    let around = format!("(((({full}))))");
    assert_eq!(typed(around.as_bytes(), 16).0, Ok(16));
}

#[test]
fn the_order_of_the_checks() {
    let long = "0 ".repeat(8) + "0";
    let both = "256 ".repeat(8) + "256";
    assert_refused(long.as_bytes(), 16, Refusal::TooLong);
    // 6 before 8, wherever the free number stands.
    assert_refused(both.as_bytes(), 16, Refusal::FreeNumber);
    assert_refused(format!("{long} 256").as_bytes(), 16, Refusal::FreeNumber);
    assert_refused(format!("256 {long}").as_bytes(), 16, Refusal::FreeNumber);
    // 11 before both.
    assert_refused(format!("{both} ").as_bytes(), 16, Refusal::Line);
    assert_refused(format!("{both})").as_bytes(), 16, Refusal::Line);
    assert_refused(format!("{long} 00").as_bytes(), 16, Refusal::Line);
    // 7 before all.
    for capacity in [0, 1, 15, 2_049] {
        for line in [&b"0"[..], b"", b"()", b"256", long.as_bytes()] {
            assert_refused(line, capacity, Refusal::Workspace);
        }
    }
    assert_eq!(typed(b"0", 16).0, Ok(1));
    assert_eq!(typed(b"0", 2_048).0, Ok(1));
}
