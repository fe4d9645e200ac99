//! One pair: both final terms, each contraction, and the least limits that decide it.

mod common;

use common::{file, judge, judge_on};

fn printed(arguments: &[&str]) -> String {
    let answer = judge(arguments);
    assert_eq!(
        (answer.status, answer.message.as_str()),
        (0, ""),
        "{arguments:?}"
    );
    answer.output
}

#[test]
fn both_final_terms_are_printed() {
    assert_eq!(
        printed(&["--forms", r"(\\1) 0 1", r"\(\0) 1"]),
        "Different 3 1 2 0\nleft   0\nright  \\1\n"
    );
    assert_eq!(
        printed(&["--forms", "--named", "(\\x y. x) a b", "λz. (λx. x) b"]),
        "Different 3 1 2 0\nleft   a\nright  \\x. b\n"
    );
    assert_eq!(
        printed(&[
            "--forms",
            "--words",
            "16",
            "--budget",
            "1",
            r"(\0 0 0) (\0 0 0)",
            "0"
        ]),
        "Full 0 13 1\nleft   (\\0 0 0) \\0 0 0\nright  0\n"
    );
}

#[test]
fn a_refused_pair_has_no_final_terms() {
    for (arguments, line, reason) in [
        (
            &["--forms", "0", "256"][..],
            "Refused 6\n",
            "right term: a free number, an index less the binders around it, is above 255 (with names: \
             more than 256 are free)",
        ),
        (
            &["--forms", "--words=15", "0", "0"],
            "Refused 7\n",
            "C, the words in each workspace, is 15 and must be 16 to 2048",
        ),
    ] {
        let answer = judge(arguments);
        assert_eq!((answer.status, answer.output.as_str()), (0, line));
        assert_eq!(answer.message, format!("judge: {reason}\n"));
    }
}

const BESIDE: &str =
    "What follows is worked out beside the unit, by tools/reference; it is not the unit's own record.";

#[test]
fn each_contraction_is_printed_and_the_units_line_compared() {
    let rows = [
        BESIDE,
        "  round  side   rule     position  words  term",
        r"      0  left   -               -      7  (\x y. x) a b",
        "      0  right  -               -      4  (\\x. x) a",
        "      1  left   beta            1      4  (\\x. a) b",
        "      1  right  beta            0      1  a",
        "      2  left   beta            0      1  a",
        "the unit's own line: Same 3 1 1",
    ];
    assert_eq!(
        printed(&["--trace", "--named", r"(\x y. x) a b", r"(\x. x) a"]),
        rows.join("\n") + "\n"
    );
}

#[test]
fn every_rule_is_named_in_a_trace() {
    let text = printed(&["--trace", r"?#3[5]{_:%1,2.1:0}", r"?#2[\\1 0]{2.1:0}"]);
    for rule in [" default ", " case ", " numeral "] {
        assert!(text.contains(rule), "{text}");
    }
    assert!(
        text.ends_with("the unit's own line: Same 3 5 5\n"),
        "{text}"
    );
}

#[test]
fn a_refused_pair_has_no_trace() {
    let answer = judge(&["--trace", "256", "0"]);
    assert_eq!((answer.status, answer.output.as_str()), (0, "Refused 6\n"));
}

#[test]
fn the_least_limits_are_found() {
    // The 27 words of `%2 %3`: %2 contracts (9 words), beta (6), %3 contracts (14), beta (15, three
    // applications of %3 to index 1), and of these each first one becomes a Church numeral (23, 25 and
    // 27 words) and three applications (20 and 17, 22 and 19, 24 and 21).
    for (left, right, text) in [
        (
            r"(\\1) 0 1",
            "0",
            "Same 2 1 1\nleast budget: 2 contractions\n\
             least workspace: 16 words, the smallest that there is\n",
        ),
        (
            r"\\\\\\\\\\\\\\\\0",
            "0",
            "Different 0 17 1 0\nleast budget: 0 contractions\nleast workspace: 17 words\n",
        ),
        (
            "%2 %3",
            "%9",
            "Same 14 21 21\nleast budget: 14 contractions\nleast workspace: 27 words\n",
        ),
    ] {
        assert_eq!(printed(&["--needs", left, right]), text);
    }
}

#[test]
fn where_no_limits_decide_a_pair_that_is_said() {
    let text = printed(&["--needs", r"(\0 0 0) (\0 0 0)", "0"]);
    assert!(
        text.starts_with(
            "no budget and workspace within the limits (1000000 contractions, 2048 words) decide it: \
             Full 290 2043 1\n"
        ),
        "{text}"
    );
    let answer = judge(&["--needs", "256", "0"]);
    assert_eq!(answer.output, "Refused 6\n");
    assert_eq!(
        answer.message,
        "judge: left term: a free number, an index less the binders around it, is above 255 (with names: more than 256 are free)\n"
    );
}

#[test]
fn declarations_are_taken_from_a_file() {
    let key = file(
        "course.key",
        "constructor Nil = 1.0, Cons = 2.2 -- lists\nlet two = %2\n\ntwo ( | three\n",
    );
    let with = |more: &[&str]| printed(&[&["--named", "--using", &key], more].concat());
    assert_eq!(with(&["two f x", "f (f x)"]), "Same 3 5 5\n");
    assert_eq!(
        with(&[
            "--forms",
            "case Cons a Nil of {Nil -> z; Cons h t -> t}",
            "Nil"
        ]),
        "Same 1 1 1\nleft   Nil\nright  Nil\n"
    );
    assert_eq!(with(&["--show-words", "Cons x Nil"]), "275,0,131\n");
    for (name, text) in [
        ("twice.key", "let one = %1\nlet one = %2\n"),
        ("odd.key", "let one = %1\n    Let two = %2\n"),
    ] {
        let path = file(name, text);
        let answer = judge(&["--named", "--using", &path, "x", "x"]);
        assert_eq!((answer.status, answer.output.as_str()), (2, ""));
        let place = format!("judge: {path}, line 2, column ");
        assert!(answer.message.starts_with(&place), "{}", answer.message);
    }
    let other = file("other.key", "let two = %3\ntwo | %3\n");
    let answer = judge(&["--named", "--using", &key, "--key", &other]);
    let reason = format!("line 1, column 5: `two` is already declared on line 2 of {key}\n");
    assert!(answer.message.contains(&reason), "{}", answer.message);
    assert!(answer.output.contains("2 not read"), "{}", answer.output);
}

#[test]
fn a_free_name_near_a_declared_one_is_doubted() {
    let key = file("near.key", "let add = \\m n f x. m f (n f x)\n");
    let answer = judge(&["--named", "--using", &key, "addd %2 %3", "%5"]);
    assert_eq!(answer.output, "Different 3 19 13 0\n");
    assert_eq!(answer.message, "judge: `addd` is free; `add` is declared\n");
}

#[test]
fn both_terms_on_standard_input_may_have_names() {
    let answer = judge_on("λx. x\nλy. y\n".as_bytes(), &["--named", "-"]);
    assert_eq!((answer.status, answer.output.as_str()), (0, "Same 0 2 2\n"));
}

#[test]
fn an_error_has_a_line_a_column_and_a_caret_in_any_script() {
    for (text, message) in [
        ("f (x", "left term, line 1, column 5: "),
        ("변수 3", "left term, line 1, column 4: "),
        ("x\nשלום 7", "left term, line 2, column 6: "),
    ] {
        let answer = judge(&["--named", text, "x"]);
        assert_eq!((answer.status, answer.output.as_str()), (2, ""), "{text}");
        assert!(
            answer.message.starts_with(&format!("judge: {message}")),
            "{}",
            answer.message
        );
        assert!(
            answer.message.trim_end().ends_with('^'),
            "{}",
            answer.message
        );
    }
    let answer = judge(&["--named", "변수 3", "x"]);
    let caret = answer.message.lines().last().expect("a caret");
    // Two letters of two columns each, and a space.
    assert_eq!(caret, "         ^");
}

#[test]
fn the_bits_of_an_encoding_stand_for_a_term() {
    // True and the identity: 00 00 110 and 00 10.
    assert_eq!(printed(&["<0000110>", r"\\1"]), "Same 0 3 3\n");
    assert_eq!(
        printed(&["--named", " < 00 10 > ", "\\x. x"]),
        "Same 0 2 2\n"
    );
    for (text, message) in [
        ("<00 1", "column 6: expected 0, 1 or `>`, found the end"),
        ("<0012>", "column 5: expected 0, 1 or `>`, found `2`"),
        ("<0010> 0", "column 8: expected the end, found `0`"),
        ("<001>", "column 5: the bits end before the term does"),
        ("<>", "column 2: the bits end before the term does"),
        (
            "<00 10 1>",
            "column 8: from here on bits are left over after the term",
        ),
        ("<00110>", "column 2: the bits of a term that is not closed"),
    ] {
        let answer = judge(&[text, "0"]);
        assert_eq!((answer.status, answer.output.as_str()), (2, ""), "{text}");
        let told = format!("judge: left term, line 1, {message}\n");
        assert!(answer.message.starts_with(&told), "{}", answer.message);
    }
}

#[test]
fn options_that_have_nothing_to_do_with_each_other_are_refused() {
    for (arguments, reason) in [
        (&["--format", "csv", "0", "0"][..], "--format goes with --key"),
        (&["--using", "x", "0", "0"], "--using goes with --named"),
        (
            &["--key", "-", "--exit-code"],
            "--exit-code goes with one pair; the exit status of --key says whether every pair was decided",
        ),
        (
            &["--needs", "--words", "16", "0", "0"],
            "--needs finds the budget and the words; it takes neither",
        ),
        (&["--key", "-", "0"], "--key takes one value; `0` is too much"),
        (&["--key", "-", "--format", "pdf"], "--format needs text, csv or html, found `pdf`"),
        (&["--key"], "--key needs a value"),
        (&["--key", "--format", "csv", "x"], "--key needs a value"),
        (
            &["--named", "--forms"],
            "--named needs two terms, each in single quotes, or --key FILE",
        ),
        (
            &["--named", "exam.key"],
            "two terms are needed, each in single quotes, or none; found 1 (a file of pairs goes with --key)",
        ),
        (
            &["--forms", "--trace", "0", "0"],
            "--trace and another option ask for two things at once",
        ),
    ] {
        let answer = judge(arguments);
        assert_eq!((answer.status, answer.output.as_str()), (2, ""), "{arguments:?}");
        assert_eq!(answer.message, format!("judge: {reason}\nSee judge --help.\n"));
    }
}
