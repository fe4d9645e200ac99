//! Encodings, against bits and bytes worked out by hand from the rules of the encoding.

mod common;

use common::TEXTS;
use unit::limits::MAX_INDEX;
use unit::{bits_text, encoding_bits, encoding_text, read_bits, Term};

fn term(text: &str) -> Term {
    text.parse().expect("a term")
}

fn read(bits: &str) -> Vec<bool> {
    read_bits(bits).unwrap_or_else(|error| panic!("{bits}: {error}"))
}

/// The bits, the encoding and the text belong together.
fn assert_encoding(text: &str, bits: &str, encoding: (usize, &[u8])) {
    let (count, bytes) = encoding;
    let found = term(text).bits().expect(text);
    assert_eq!(found, read(bits), "{text}");
    let numbers: Vec<String> = bytes.iter().map(u8::to_string).collect();
    assert_eq!(
        encoding_text(&found),
        format!("{count} {}", numbers.join(",")),
        "{text}"
    );
    assert_eq!(encoding_bits(count, bytes), Ok(found.clone()), "{text}");
    assert_eq!(Term::from_bits(&found), Ok(term(text)));
}

#[test]
fn named_terms_have_these_encodings() {
    assert_encoding(r"\0", "00 10", (4, &[32]));
    assert_encoding(r"\\0", "00 00 10", (6, &[8]));
    assert_encoding(r"\\1", "00 00 110", (7, &[12]));
    // S.
    let bits = "00 00 00 01 01 1110 10 01 110 10";
    assert_encoding(r"\\\2 0 (1 0)", bits, (23, &[1, 122, 116]));
    // Omega: 01000110 10000110 10.
    let bits = "01 00 01 10 10 00 01 10 10";
    assert_encoding(r"(\0 0) \0 0", bits, (18, &[70, 134, 128]));
    // Y: 00010001 11001101 00001110 011010.
    let bits = "00 01 00 01 110 01 10 10 00 01 110 01 10 10";
    let y = r"\(\1 (0 0)) \1 (0 0)";
    assert_encoding(y, bits, (30, &[17, 205, 14, 104]));
}

#[test]
fn bits_end_with_a_byte_or_one_bit_after_it() {
    assert_encoding(r"\\\0", "00000010", (8, &[2]));
    assert_encoding(r"\\\1", "00000011 0", (9, &[3, 0]));
    // Church 2.
    assert_encoding(r"\\1 (1 0)", "00000111 00111010", (16, &[7, 58]));
}

#[test]
fn long_runs_cross_bytes() {
    let run = |ones: usize| {
        let text = format!("{}{}", r"\".repeat(ones), ones - 1);
        let bits = format!("{}{}0", "00".repeat(ones), "1".repeat(ones));
        (text, bits)
    };
    // 126 zeros: 15 bytes and 6 bits; 2 ones, 7 bytes of them, 5 ones.
    let (text, bits) = run(63);
    let bytes = [&[0; 15][..], &[3], &[255; 7], &[248]].concat();
    assert_encoding(&text, &bits, (190, &bytes));
    // 128 zeros: 16 bytes; 8 bytes of ones; the zero.
    let (text, bits) = run(64);
    let bytes = [&[0; 16][..], &[255; 8], &[0]].concat();
    assert_encoding(&text, &bits, (193, &bytes));
    // 130 zeros: 16 bytes and 2 bits; 6 ones, 7 bytes of them, 3 ones.
    let (text, bits) = run(65);
    let bytes = [&[0; 16][..], &[63], &[255; 7], &[224]].concat();
    assert_encoding(&text, &bits, (196, &bytes));
}

/// The term below so many abstractions.
fn below(abstractions: usize, text: &str) -> String {
    format!("{}{text}", r"\".repeat(abstractions))
}

#[test]
fn terms_come_back() {
    let all = MAX_INDEX as usize + 1;
    let mut found = 0;
    for text in TEXTS {
        let closed = term(&below(all, text));
        let Ok(bits) = closed.bits() else {
            assert!(text.contains(['#', '?', '%']), "{text}");
            continue;
        };
        assert_eq!(bits[..2 * all], vec![false; 2 * all]);
        // The term itself, open or not, has the bits after those of the abstractions.
        let own = &bits[2 * all..];
        assert_eq!(Term::from_bits(own), Ok(term(text)));
        assert_eq!(Term::from_bits(&bits), Ok(closed));
        assert_eq!(read(&bits_text(&bits)), bits);
        found += 1;
    }
    assert_eq!(found, 13);
}

#[test]
fn nesting_has_no_limit() {
    let depth = 200_000;
    for text in [
        below(depth, "0"),
        format!(r"\{}0{}", "0 (".repeat(depth), ")".repeat(depth)),
        format!(r"\0{}", " 0".repeat(depth)),
    ] {
        let term = term(&text);
        let bits = term.bits().expect("an encoding");
        assert_eq!(Term::from_bits(&bits), Ok(term));
    }
}

#[test]
fn terms_without_an_encoding() {
    const KINDS: &str = "encodings have only variables, abstractions and applications";
    const CLOSED: &str = "only closed terms have encodings";
    let error = |text: &str| term(text).bits().expect_err(text).to_string();
    for (text, place, free) in [
        ("0", 1, "index 0 is the free variable 0"),
        (r"\1", 2, "index 1 is the free variable 0"),
        (r"\\0 7", 5, "index 7 is the free variable 5"),
        // The first abstraction ends before the argument.
        (r"(\0) 0", 4, "index 0 is the free variable 0"),
        (r"\0 (\1) 2", 7, "index 2 is the free variable 1"),
    ] {
        assert_eq!(error(text), format!("word {place}: {free}; {CLOSED}"));
    }
    for (text, place, other) in [
        ("#2", 1, "#2 is a constructor"),
        (r"\0 #1[0]", 4, "#1 is a constructor"),
        (r"\?0{1.1:0}", 2, "? is a case"),
        (r"(\0) %31", 4, "%31 is a numeral"),
    ] {
        assert_eq!(error(text), format!("word {place}: {other}; {KINDS}"));
    }
    // The first word counts.
    assert_eq!(
        error("#1 0"),
        format!("word 2: #1 is a constructor; {KINDS}")
    );
    assert_eq!(
        error("0 #1"),
        format!("word 2: index 0 is the free variable 0; {CLOSED}")
    );
}

fn text(bits: &str) -> String {
    match Term::from_bits(&read(bits)) {
        Ok(term) => term.to_string(),
        Err(error) => error.to_string(),
    }
}

#[test]
fn open_terms_are_read() {
    assert_eq!(text("10"), "0");
    assert_eq!(text("00 110"), r"\1");
    assert_eq!(text("01 00 10 1110"), r"(\0) 2");
    let largest = format!("{}0", "1".repeat(32_768));
    assert_eq!(text(&largest), "32767");
}

#[test]
fn bits_that_are_no_term() {
    for (bits, end) in [
        ("", 1),
        ("0", 2),
        ("1", 2),
        ("00", 3),
        ("01", 3),
        ("001", 4),
        ("01 0010", 7),
        ("01 0010 0", 8),
        ("01 0010 00", 9),
        ("01 0010 001", 10),
    ] {
        let early = format!("bit {end}: the bits end before the term does");
        assert_eq!(text(bits), early, "{bits}");
    }
    for (bits, place) in [("10 0", 3), ("0010 1", 5), ("0010 0010", 5)] {
        let left_over = format!("bit {place}: from here on bits are left over after the term");
        assert_eq!(text(bits), left_over, "{bits}");
    }
    let past = format!("00 01 10 {}0", "1".repeat(32_769));
    assert_eq!(
        text(&past),
        "bit 7: a run for index 32768; the notation ends at 32767"
    );
}

#[test]
fn bytes_that_are_no_encoding() {
    let error = |count, bytes: &[u8]| {
        encoding_bits(count, bytes)
            .expect_err("no encoding")
            .to_string()
    };
    assert_eq!(
        error(1, &[]),
        "bit 1: the bytes end before the bit count, 1"
    );
    assert_eq!(
        error(9, &[32]),
        "bit 9: the bytes end before the bit count, 9"
    );
    assert_eq!(
        error(4_294_967_295, &[1, 122, 116]),
        "bit 25: the bytes end before the bit count, 4294967295"
    );
    for (count, bytes, place) in [
        (4, &[40][..], 5),
        (4, &[33], 8),
        (4, &[32, 128], 9),
        (4, &[32, 0, 1], 24),
        (8, &[2, 64], 10),
        (0, &[255], 1),
    ] {
        let padding = format!("bit {place}: a 1 past the bit count, {count}, where every bit is 0");
        assert_eq!(error(count, bytes), padding);
    }
    // Further bytes of zeros are part of the encoding.
    assert_eq!(encoding_bits(4, &[32, 0, 0]), Ok(read("0010")));
    assert_eq!(encoding_bits(0, &[]), Ok(vec![]));
}

#[test]
fn bits_are_read_with_blanks_around_them() {
    assert_eq!(read(" 00\t1\n0\r\n"), [false, false, true, false]);
    assert_eq!(bits_text(&[false, false, true, false]), "0010");
    let error = |text| read_bits(text).expect_err(text).to_string();
    assert_eq!(error("0 0 2"), "bit 3: expected 0 or 1, found `2`");
    assert_eq!(error(r"\0"), r"bit 1: expected 0 or 1, found `\`");
    assert_eq!(
        error("01\u{200b}"),
        r"bit 3: expected 0 or 1, found `\u{200b}`"
    );
}

/// Tromp's numbers of closed terms, and of all terms, whose bits are so many.
const CLOSED: [usize; 17] = [0, 0, 0, 0, 1, 0, 1, 1, 2, 1, 6, 5, 13, 14, 37, 44, 101];
const ALL: [usize; 17] = [
    0, 0, 1, 1, 2, 2, 4, 5, 10, 14, 27, 41, 78, 126, 237, 399, 745,
];

#[test]
fn so_many_short_bits_are_terms() {
    for length in 0..CLOSED.len() {
        let (mut closed, mut all) = (0, 0);
        for number in 0..1_u32 << length {
            let bits: Vec<bool> = (0..length).map(|place| number >> place & 1 == 1).collect();
            let Ok(term) = Term::from_bits(&bits) else {
                continue;
            };
            all += 1;
            if let Ok(own) = term.bits() {
                assert_eq!(own, bits);
                closed += 1;
            }
        }
        assert_eq!((closed, all), (CLOSED[length], ALL[length]), "{length}");
    }
}

/// Random bits, by xorshift.
fn random_bits(state: &mut u64, length: usize) -> Vec<bool> {
    let mut bit = || {
        *state ^= *state << 13;
        *state ^= *state >> 7;
        *state ^= *state << 17;
        *state >> 63 == 1
    };
    (0..length).map(|_| bit()).collect()
}

#[test]
fn a_term_of_random_bits_has_exactly_these() {
    let mut state = 0x9E37_79B9_7F4A_7C15;
    let mut found = 0;
    for case in 0..20_000 {
        let mut bits = random_bits(&mut state, case % 300);
        match Term::from_bits(&bits) {
            Ok(_) => {}
            // Either no start is a term, or the bits before those left over are.
            Err(error) if error.place > bits.len() => continue,
            Err(error) => bits.truncate(error.place - 1),
        }
        // So many abstractions close every term.
        let closed = [vec![false; 2 * bits.len()], bits.clone()].concat();
        let own = Term::from_bits(&closed).expect("a term below abstractions");
        assert_eq!(own.bits(), Ok(closed));
        let term = Term::from_bits(&bits).expect("the bits before those left over");
        assert_eq!(own.to_string(), below(bits.len(), &term.to_string()));
        found += 1;
    }
    assert!(found > 5_000, "{found}");
}

#[test]
fn random_bytes_are_an_encoding_or_an_error() {
    let mut state = 0x2545_F491_4F6C_DD1D;
    for case in 0..20_000 {
        let digits = random_bits(&mut state, 8 * (case % 5) + 6);
        let (count, bits) = digits.split_at(6);
        let count = count.iter().fold(0, |sum, bit| 2 * sum + usize::from(*bit));
        let byte = |bits: &[bool]| bits.iter().fold(0, |sum, bit| 2 * sum + u8::from(*bit));
        let bytes: Vec<u8> = bits.chunks(8).map(byte).collect();
        let expected = match bits.split_at_checked(count) {
            Some((bits, past)) if !past.contains(&true) => Some(bits.to_vec()),
            _ => None,
        };
        assert_eq!(
            encoding_bits(count, &bytes).ok(),
            expected,
            "{count} {bytes:?}"
        );
    }
}
