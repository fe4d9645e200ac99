//! The notation, against expectations worked out by hand from its grammar and the rules' table of
//! words.

mod common;

use common::TEXTS;
use unit::limits::MAX_BOUND;
use unit::Term;

fn read(text: &str) -> Term {
    text.parse()
        .unwrap_or_else(|error| panic!("{text}: {error}"))
}

fn words(text: &str) -> Vec<u32> {
    read(text).words().expect("the term has words")
}

/// The place and both halves of the message, as `3: expected, found`.
fn error(text: &str) -> String {
    let error = text.parse::<Term>().expect_err(text);
    format!("{}: {}, {}", error.column, error.expected, error.found)
}

const ITEM: &str = "an index, `(`, `\\`, `#`, `?` or `%`";

fn misses_item(text: &str, column: usize, found: &str) {
    assert_eq!(error(text), format!("{column}: {ITEM}, {found}"), "{text}");
}

#[test]
fn application_groups_to_the_left() {
    assert_eq!(words("0 1 2"), [2, 2, 0, 8, 16]);
    assert_eq!(words("(0 1) 2"), [2, 2, 0, 8, 16]);
    assert_eq!(words("0 (1 2)"), [2, 0, 2, 8, 16]);
    assert_eq!(words("0 1 (2 3) 4"), [2, 2, 2, 0, 8, 2, 16, 24, 32]);
}

#[test]
fn abstraction_reaches_as_far_right_as_it_can() {
    assert_eq!(words(r"\0 1"), [1, 2, 0, 8]);
    assert_eq!(words(r"(\0) 1"), [2, 1, 0, 8]);
    assert_eq!(words(r"\\1 0"), [1, 1, 2, 8, 0]);
    assert_eq!(words(r"0 \1 2"), [2, 0, 1, 2, 8, 16]);
    assert_eq!(words(r"#1[\0 1,2]"), [147, 1, 2, 0, 8, 16]);
    assert_eq!(
        words(r"?\0 1{1.0:\2 3}"),
        [12, 1, 2, 0, 8, 133, 1, 2, 16, 24]
    );
}

#[test]
fn constructors_and_cases_are_items() {
    assert_eq!(words("#1"), [131]);
    assert_eq!(words("#1 0"), [2, 131, 0]);
    assert_eq!(words("0 #2[1] #1"), [2, 2, 0, 267, 8, 131]);
    assert_eq!(words("?0{} 1"), [2, 4, 0, 8]);
    assert_eq!(words("0 ?1{3.2:0 1}"), [2, 0, 12, 8, 405, 2, 0, 8]);
    assert_eq!(words("??0{}{1.0:?1{}}"), [12, 4, 0, 133, 4, 8]);
}

#[test]
fn numerals_are_items() {
    // Numeral n is 8n + 6.
    assert_eq!(words("%0"), [6]);
    assert_eq!(words("%31"), [254]);
    assert_eq!(words("%8 %2"), [2, 70, 22]);
    assert_eq!(words("%2 0 (%1 1)"), [2, 2, 22, 0, 2, 14, 8]);
    assert_eq!(words(r"\\%3 1"), [1, 1, 2, 30, 8]);
    assert_eq!(words("#1[%1,%0]"), [147, 14, 6]);
    assert_eq!(words("?%0{1.0:%1} %2"), [2, 12, 6, 133, 14, 22]);
}

#[test]
fn a_default_is_a_branch_of_tag_0_that_binds_nothing() {
    assert_eq!(words("?0{_:1}"), [12, 0, 5, 8]);
    assert_eq!(words("?0{0.0:1}"), [12, 0, 5, 8]);
    assert_eq!(words("?#1{_:0 1,1.2:2}"), [20, 131, 5, 2, 0, 8, 149, 16]);
    assert_eq!(words(r"?0{_:\1} 2"), [2, 12, 0, 5, 1, 8, 16]);
    assert_eq!(
        words("??0{_:1}{_:?2{_:3}}"),
        [12, 12, 0, 5, 8, 5, 12, 16, 5, 24]
    );
    // What the unit refuses is read as it stands: a default behind another branch, two of them, and
    // tag 0 that binds.
    assert_eq!(words("?0{1.0:0,_:1}"), [20, 0, 133, 0, 5, 8]);
    assert_eq!(words("?0{_:0,_:1}"), [20, 0, 5, 0, 5, 8]);
    assert_eq!(words("?0{0.2:0}"), [12, 0, 21, 0]);
}

#[test]
fn bench_pairs_read_as_their_words() {
    assert_eq!(words(r"(\0) 3"), [2, 1, 0, 24]);
    assert_eq!(words(r"(\\1) 0 1"), [2, 2, 1, 1, 8, 0, 8]);
    assert_eq!(words(r"(\1) 1"), [2, 1, 8, 8]);
    assert_eq!(words(r"(\0 0) \0 0"), [2, 1, 2, 0, 0, 1, 2, 0, 0]);
    assert_eq!(
        words(r"(\\1) 0 ((\0 0) \0 0)"),
        [2, 2, 1, 1, 8, 0, 2, 1, 2, 0, 0, 1, 2, 0, 0]
    );
    assert_eq!(words(r"\(\\1) 0"), [1, 2, 1, 1, 8, 0]);
    assert_eq!(words(r"\1 0"), [1, 2, 8, 0]);
    assert_eq!(words("?#2[5]{1.0:0,2.1:0}"), [20, 267, 40, 133, 0, 269, 0]);
    assert_eq!(words("?#1[0,1]{1.2:0}"), [12, 147, 0, 8, 149, 0]);
    assert_eq!(words("?#1[0]{1.0:0}"), [12, 139, 0, 133, 0]);
    assert_eq!(
        words(r"(\0 0 0) \0 0 0"),
        [2, 1, 2, 2, 0, 0, 0, 1, 2, 2, 0, 0, 0]
    );
}

#[test]
fn text_with_the_fewest_parentheses_is_printed_as_it_was_read() {
    for text in TEXTS {
        assert_eq!(read(text).to_string(), text);
    }
}

#[test]
fn further_parentheses_change_nothing() {
    for (text, printed) in [
        ("(0)", "0"),
        (r"((\(0)))", r"\0"),
        (r"0 (\0)", r"0 \0"),
        ("(0 1) 2", "0 1 2"),
        ("#1[(0 1),(2)]", "#1[0 1,2]"),
        (r"?(0 1){1.0:(\0)}", r"?0 1{1.0:\0}"),
        ("(?0{}) (#1)", "?0{} #1"),
        ("(%1) ((%2) 0)", "%1 (%2 0)"),
    ] {
        assert_eq!(read(text).to_string(), printed);
    }
}

#[test]
fn a_default_is_printed_in_one_way() {
    assert_eq!(read("?0{0.0:1}").to_string(), "?0{_:1}");
    assert_eq!(
        read("?0{0.0:1,0.1:2,0.0:3}").to_string(),
        "?0{_:1,0.1:2,_:3}"
    );
    assert_eq!(read("?0{0.0:1}"), read("?0{_:1}"));
}

#[test]
fn nesting_has_no_limit() {
    let depth = 200_000;
    let parenthesised = format!("{}0{}", "(".repeat(depth), ")".repeat(depth));
    assert_eq!(read(&parenthesised).to_string(), "0");
    for (before, after) in [(r"\", ""), ("#1[", "]"), ("?", "{}"), ("0 (", ")")] {
        let text = format!("{}0 0{}", before.repeat(depth), after.repeat(depth));
        assert_eq!(read(&text).to_string(), text);
    }
    let left = format!("{}0{}", "(".repeat(depth), " 0)".repeat(depth));
    assert_eq!(read(&left).to_string(), format!("0{}", " 0".repeat(depth)));
}

#[test]
fn blanks_stand_around_every_part() {
    for (text, printed) in [
        (" 0", "0"),
        ("0 ", "0"),
        ("0  1", "0 1"),
        ("0\t1", "0 1"),
        ("0\n1\r\n", "0 1"),
        ("( 0 )", "0"),
        ("\\ 0", "\\0"),
        ("( \\ 0 )  1", "(\\0) 1"),
        ("#1 [ 0 , 1 ]", "#1[0,1]"),
        ("#1  0", "#1 0"),
        (" %1\t%2 ", "%1 %2"),
        ("? 0 { }", "?0{}"),
        ("? 0 1 { 1.0 : 0 , 2.1 : 1 } 2", "?0 1{1.0:0,2.1:1} 2"),
        ("? 0 { _ : 0 , 2.1 : 1 , _\t:2}", "?0{_:0,2.1:1,_:2}"),
    ] {
        assert_eq!(read(text).to_string(), printed);
    }
}

#[test]
fn an_item_is_missing() {
    misses_item("", 1, "the end");
    misses_item(" ", 2, "the end");
    misses_item("()", 2, "`)`");
    misses_item("( )", 3, "`)`");
    misses_item("\\", 2, "the end");
    misses_item("x", 1, "`x`");
    misses_item("λ0", 1, "`λ`");
    misses_item("-1", 1, "`-`");
    misses_item("{0}", 1, "`{`");
    misses_item("#1[0,]", 6, "`]`");
    misses_item("#1[,0]", 4, "`,`");
    misses_item("?", 2, "the end");
    misses_item("?{}", 2, "`{`");
    misses_item("?0{1.0:}", 8, "`}`");
    misses_item("?0{1.0: }", 9, "`}`");
}

#[test]
fn a_term_does_not_end_as_it_must() {
    assert_eq!(error("0)"), "2: a space or the end, `)`");
    assert_eq!(error("(0)(1)"), "4: a space or the end, `(`");
    assert_eq!(error(r"0\0"), r"2: a space or the end, `\`");
    assert_eq!(error("0\u{7}1"), r"2: a space or the end, `\u{7}`");
    assert_eq!(error("0,1"), "2: a space or the end, `,`");
    assert_eq!(error("#1#2"), "3: a space or the end, `#`");
    assert_eq!(error("?0{}1"), "5: a space or the end, `1`");
    assert_eq!(error("%1%2"), "3: a space or the end, `%`");
    assert_eq!(error("0%2"), "2: a space or the end, `%`");
    assert_eq!(error("%1[0]"), "3: a space or the end, `[`");
    assert_eq!(error("(0"), "3: a space or `)`, the end");
    assert_eq!(error(r"0 (\0 1]"), "8: a space or `)`, `]`");
    assert_eq!(error("#1[0"), "5: a space, `,` or `]`, the end");
    assert_eq!(error(r"#1[\0)"), "6: a space, `,` or `]`, `)`");
    assert_eq!(error("?0"), "3: a space or `{`, the end");
    assert_eq!(error("?0:"), "3: a space or `{`, `:`");
    assert_eq!(error("?0{1.0:0"), "9: a space, `,` or `}`, the end");
    assert_eq!(error("?0{1.0:0;2.0:1}"), "9: a space, `,` or `}`, `;`");
}

#[test]
fn after_a_blank_an_item_could_follow() {
    const ITEMS: &str = r"an index, `(`, `\`, `#`, `?`, `%`";
    assert_eq!(error("0 )"), format!("3: {ITEMS} or the end, `)`"));
    assert_eq!(error("0 λ"), format!("3: {ITEMS} or the end, `λ`"));
    assert_eq!(error("(0 ]"), format!("4: {ITEMS} or `)`, `]`"));
    assert_eq!(error("#1[0 )"), format!("6: {ITEMS}, `,` or `]`, `)`"));
    assert_eq!(error("?0 :"), format!("4: {ITEMS} or `{{`, `:`"));
    assert_eq!(
        error("?0{1.0:0 :"),
        format!("10: {ITEMS}, `,` or `}}`, `:`")
    );
}

#[test]
fn a_character_that_cannot_be_seen_is_named_by_its_number() {
    assert_eq!(error("0\u{a0}1"), r"2: a space or the end, `\u{a0}`");
    misses_item("\u{feff}0", 1, r"`\u{feff}`");
    misses_item("\u{301}", 1, r"`\u{301}`");
}

#[test]
fn a_constructor_or_branch_is_not_as_it_must_be() {
    assert_eq!(error("#"), "2: a constructor's tag, the end");
    assert_eq!(error("# 1"), "2: a constructor's tag, a space");
    for text in ["#1[]", "#1[ ]"] {
        let column = text.len();
        assert_eq!(
            error(text),
            format!("{column}: an argument (without arguments there are no brackets), `]`")
        );
    }
    assert_eq!(error("?0{"), "4: a branch's tag, `_` or `}`, the end");
    assert_eq!(error("?0{#"), "4: a branch's tag, `_` or `}`, `#`");
    assert_eq!(error("?0{1}"), "5: `.` and a bound count, `}`");
    assert_eq!(error("?0{1 .0:0}"), "5: `.` and a bound count, a space");
    assert_eq!(error("?0{1:0}"), "5: `.` and a bound count, `:`");
    assert_eq!(error("?0{1.:0}"), "6: a bound count, `:`");
    assert_eq!(error("?0{1. 0:0}"), "6: a bound count, a space");
    assert_eq!(error("?0{1.0}"), "7: `:` and the branch's body, `}`");
    assert_eq!(error("?0{1.0:0,}"), "10: a branch's tag or `_`, `}`");
    assert_eq!(error("?0{1.0:0, }"), "11: a branch's tag or `_`, `}`");
}

#[test]
fn a_default_is_not_as_it_must_be() {
    const BODY: &str = "`:` and the branch's body";
    assert_eq!(error("?0{_}"), format!("5: {BODY}, `}}`"));
    assert_eq!(error("?0{_.1:0}"), format!("5: {BODY}, `.`"));
    assert_eq!(error("?0{_.0:0}"), format!("5: {BODY}, `.`"));
    assert_eq!(error("?0{_0:0}"), format!("5: {BODY}, `0`"));
    assert_eq!(error("?0{_ 0:0}"), format!("6: {BODY}, `0`"));
    assert_eq!(error("?0{__:0}"), format!("5: {BODY}, `_`"));
    assert_eq!(error("?0{_"), format!("5: {BODY}, the end"));
    assert_eq!(error("?0{0._:0}"), "6: a bound count, `_`");
    assert_eq!(error("?0{0_:0}"), "5: `.` and a bound count, `_`");
    misses_item("?0{_:}", 6, "`}`");
    misses_item("?0{_:_}", 6, "`_`");
    // Elsewhere than in a branch's place.
    misses_item("_", 1, "`_`");
    misses_item("(_)", 2, "`_`");
    misses_item("?_{}", 2, "`_`");
    misses_item("#1[_]", 4, "`_`");
    assert_eq!(error("0_"), "2: a space or the end, `_`");
    assert_eq!(error("#_"), "2: a constructor's tag, `_`");
    assert_eq!(error("%_"), "2: a numeral, `_`");
}

#[test]
fn a_number_is_not_as_it_must_be() {
    assert_eq!(error("00"), "1: an index without leading zeros, 00");
    assert_eq!(error(r"\0 01"), "4: an index without leading zeros, 01");
    assert_eq!(error("32768"), "1: an index, at most 32767, 32768");
    assert_eq!(
        error("0 99999999999"),
        "3: an index, at most 32767, 99999999999"
    );
    assert_eq!(
        error("#01"),
        "2: a constructor's tag without leading zeros, 01"
    );
    assert_eq!(
        error("#4294967296"),
        "2: a constructor's tag, at most 4294967295, 4294967296"
    );
    assert_eq!(
        error("?0{01.0:0}"),
        "4: a branch's tag without leading zeros, 01"
    );
    assert_eq!(
        error("?0{268435456.0:0}"),
        "4: a branch's tag, at most 268435455, 268435456"
    );
    assert_eq!(
        error("?0{1.00:0}"),
        "6: a bound count without leading zeros, 00"
    );
    let more = MAX_BOUND + 1;
    let bound = format!("6: a bound count, at most {MAX_BOUND}, {more}");
    assert_eq!(error(&format!("?0{{1.{more}:0}}")), bound);
    assert_eq!(error("%32"), "2: a numeral, at most 31, 32");
    assert_eq!(
        error("0 %99999999999"),
        "4: a numeral, at most 31, 99999999999"
    );
    // A long one is cut.
    assert_eq!(
        error(&"7".repeat(100_000)),
        format!("1: an index, at most 32767, {}..", "7".repeat(40))
    );
    assert_eq!(error("%01"), "2: a numeral without leading zeros, 01");
    assert_eq!(error("%"), "2: a numeral, the end");
    assert_eq!(error("% 1"), "2: a numeral, a space");
    assert_eq!(error(r"(%\0)"), r"3: a numeral, `\`");
}
