//! Words to terms and back, against expectations worked out by hand from the rules' word table.

use unit::limits::MAX_ARGUMENTS;
use unit::{words_text, Term};

fn text(words: &[u32]) -> String {
    match Term::from_words(words) {
        Ok(term) => term.to_string(),
        Err(error) => error.to_string(),
    }
}

#[test]
fn bench_pairs_print_as_text() {
    assert_eq!(text(&[2, 1, 0, 24]), r"(\0) 3");
    assert_eq!(text(&[2, 2, 1, 1, 8, 0, 8]), r"(\\1) 0 1");
    assert_eq!(text(&[2, 1, 2, 0, 0, 1, 2, 0, 0]), r"(\0 0) \0 0");
    assert_eq!(text(&[1, 2, 1, 1, 8, 0]), r"\(\\1) 0");
    assert_eq!(text(&[20, 267, 40, 133, 0, 269, 0]), "?#2[5]{1.0:0,2.1:0}");
    assert_eq!(text(&[12, 147, 0, 8, 149, 0]), "?#1[0,1]{1.2:0}");
    assert_eq!(text(&[4, 0]), "?0{}");
    assert_eq!(text(&[2, 70, 22]), "%8 %2");
    assert_eq!(text(&[20, 131, 5, 22, 149, 8]), "?#1{_:%2,1.2:1}");
}

#[test]
fn words_come_back() {
    for words in [
        &[262_136][..],
        &[2, 0, 2, 8, 1, 0],
        &[3],
        &[0xffff_ff83],
        &[32_715, 0, 8, 16, 24, 32, 40, 48, 56, 64],
        &[28, 0, 5, 0, 0xffff_ffcd, 0, 5, 1, 0],
        &[2, 254, 1, 6],
    ] {
        let term = Term::from_words(words).expect("a term");
        assert_eq!(term.words().expect("its words"), words);
        assert_eq!(term.to_string().parse::<Term>().expect("its text"), term);
    }
}

#[test]
fn words_that_are_no_term() {
    assert_eq!(text(&[]), "word 1: the words end before the term does");
    assert_eq!(text(&[2, 0]), "word 3: the words end before the term does");
    assert_eq!(text(&[12, 0]), "word 3: the words end before the term does");
    assert_eq!(text(&[0, 8]), "word 2: 8 comes after the end of the term");
    assert_eq!(text(&[1, 7]), "word 2: 7 has kind 7; kinds run from 0 to 6");
    assert_eq!(text(&[15]), "word 1: 15 has kind 7; kinds run from 0 to 6");
    assert_eq!(
        text(&[1, 262]),
        "word 2: 262 is numeral 32; the last one is 31"
    );
    assert_eq!(text(&[6, 0]), "word 2: 0 comes after the end of the term");
    assert_eq!(
        text(&[12, 0, 134]),
        "word 3: 134 is no branch, and a branch must stand here"
    );
    assert_eq!(
        text(&[9, 0]),
        "word 1: 9 has kind 1 and a payload other than 0"
    );
    assert_eq!(
        text(&[10, 0, 0]),
        "word 1: 10 has kind 2 and a payload other than 0"
    );
    assert_eq!(
        text(&[262_144]),
        "word 1: 262144 is index 32768; the notation ends at 32767"
    );
    assert_eq!(
        text(&[1, 133, 0]),
        "word 2: 133 is a branch where a term must stand"
    );
    assert_eq!(
        text(&[12, 133, 0]),
        "word 2: 133 is a branch where a term must stand"
    );
    assert_eq!(
        text(&[12, 0, 8]),
        "word 3: 8 is no branch, and a branch must stand here"
    );
}

#[test]
fn terms_without_words() {
    let error = |text: &str| {
        let term: Term = text.parse().expect("a term");
        term.words().expect_err(text).to_string()
    };
    let most = MAX_ARGUMENTS as usize;
    assert_eq!(
        error(&format!("0 #1[{}0]", "0,".repeat(most))),
        format!(
            "word 3: no word holds {} arguments, only up to {most}",
            most + 1
        )
    );
    assert_eq!(
        error("#33554432"),
        "word 1: its tag is too large for a word"
    );
    assert_eq!(
        error("?0{33554432.0:0}"),
        "word 3: its tag is too large for a word"
    );
    assert_eq!(
        "#33554431".parse::<Term>().expect("a term").words(),
        Ok(vec![0xffff_ff83])
    );
}

#[test]
fn words_are_printed_as_the_rules_write_them() {
    assert_eq!(words_text(&[2, 1, 0, 24]), "2,1,0,24");
}
