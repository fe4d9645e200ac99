//! `judge --key`: the stored keys, whose verdicts come from mathematics, and what is printed of a key.

mod common;

use common::{file, judge, judge_on, records};
use reference::random::Random;
use std::collections::BTreeMap;
use std::fs;
use std::path::{Path, PathBuf};

fn stored_keys() -> Vec<PathBuf> {
    let folder = Path::new(env!("CARGO_MANIFEST_DIR")).join("tests/keys");
    let entries = fs::read_dir(folder).expect("the stored keys");
    let mut paths: Vec<PathBuf> = entries.map(|entry| entry.expect("a key").path()).collect();
    paths.sort();
    paths
}

/// The lines of a stored key that expect something: number and verdict. A pair's comment starts with it.
fn expectations(text: &str) -> Vec<(String, String)> {
    let mut expected = Vec::new();
    for (number, line) in (1..).zip(text.lines()) {
        let (content, comment) = line.split_once("--").unwrap_or((line, ""));
        if content.contains('|') {
            let word: String = comment
                .trim()
                .chars()
                .take_while(|c| c.is_alphabetic())
                .collect();
            expected.push((number.to_string(), word));
        }
    }
    expected
}

#[test]
fn stored_keys_have_the_verdicts_of_mathematics() {
    let mut counts = BTreeMap::new();
    for path in stored_keys() {
        let text = fs::read_to_string(&path).expect("a key");
        let name = path.to_str().expect("a path that is text");
        let mut arguments = vec!["--key", name, "--format", "csv", "--budget", "1000000"];
        if !name.ends_with("indices.key") {
            arguments.push("--named");
        }
        let answer = judge(&arguments);
        assert_eq!(answer.message, "", "{name}");
        let found: Vec<(String, String)> = records(&answer.output)[1..]
            .iter()
            .map(|record| (record[0].clone(), record[3].clone()))
            .collect();
        let expected = expectations(&text);
        let is_verdict =
            |word: &String| ["Same", "Different", "Budget", "Full"].contains(&word.as_str());
        assert!(expected.iter().all(|(_, word)| is_verdict(word)), "{name}");
        assert_eq!(found, expected, "{name}");
        let decided = |(_, word): &(String, String)| word == "Same" || word == "Different";
        let status = if expected.iter().all(decided) { 0 } else { 1 };
        assert_eq!(answer.status, status, "{name}");
        for (_, verdict) in expected {
            *counts.entry(verdict).or_insert(0) += 1;
        }
    }
    // As docs/EXAMINERS.md has it.
    let counts: Vec<(&str, u32)> = counts
        .iter()
        .map(|(verdict, count)| (verdict.as_str(), *count))
        .collect();
    assert_eq!(
        counts,
        [
            ("Budget", 7),
            ("Different", 107),
            ("Full", 24),
            ("Same", 352)
        ]
    );
}

/// Every kind of row. The verdicts are those of the README; `%2 %3` is the Church numeral 3 to the power 2.
const KEY: &str = r"-- A key with a row of each kind.
(\\1) 0 1 | 0   -- a comment
\0 1|\0 2

(\0 0) (\0 0) | 0
--- Part 2 ---
(\0 0 0) (\0 0 0) | 0
#256 | 0
0 | 256
0 (1 | 0
?#3[5]{_:0,2.1:0} | 0
";

const TEXT: &str = r" line  verdict     contractions   left  right   word
    2  Same                   2      1      1
       --     a comment
       pair   (\\1) 0 1 | 0
       both   0
    3  Different              0      4      4      3
       pair   \0 1|\0 2
       right  \0 2
                 ^
    5  Budget                 5      9      1
       pair   (\0 0) (\0 0) | 0
       right  0
       why    not decided: the next round would pass the budget of 5 contractions

Part 2
    7  Full                   1     20      1
       pair   (\0 0 0) (\0 0 0) | 0
       right  0
       why    not decided: a next term would be longer than 24 words
    8  Refused 3
       pair   #256 | 0
       why    left term: a tag is outside 1 to 255; only a default, `_:BODY`, has tag 0, and it binds nothing
    9  Refused 6
       pair   0 | 256
       why    right term: a free number, an index less the binders around it, is above 255 (with names: more than 256 are free)
   10  Not read
       pair   0 (1 | 0
       why    column 6: expected an index, `(`, `\`, `#`, `?`, `%` or `)`, found `|`
   11  Same                   1      1      1
       pair   ?#3[5]{_:0,2.1:0} | 0
       both   0

8 lines: 2 Same, 1 Different, 1 Budget, 1 Full, 2 refused, 1 not read.
Limits: 5 contractions a pair, both sides together; workspaces of 24 words.
The form is the shorter of the two terms at the end, the right one if both are equally long.
Not decided: lines 5, 7 to 10. Nothing is said of these pairs; `judge --explain Full`, or Budget, or a refusal's number, says more.
";

/// The rows of its page, without what stands around the table's rows.
const ROWS: [&str; 10] = [
    r#"<td></td><td colspan="6"><bdi>a comment</bdi></td>"#,
    r#"<td class="number">2</td><td><code>(\\1) 0 1</code></td><td><code>0</code></td><td class="Same">Same</td><td class="number">2</td><td class="number">1, 1</td><td><code>0</code><div class="note">both</div></td>"#,
    r#"<td class="number">3</td><td><code>\0 1</code></td><td><code>\0 2</code></td><td class="Different">Different</td><td class="number">0</td><td class="number">4, 4</td><td><code>\0 <mark>2</mark></code><div class="note">right; differs at word 3</div></td>"#,
    r#"<td class="number">5</td><td><code>(\0 0) (\0 0)</code></td><td><code>0</code></td><td class="Budget">Budget</td><td class="number">5</td><td class="number">9, 1</td><td><code>0</code><div class="note">right</div><div class="note">not decided: the next round would pass the budget of 5 contractions</div></td>"#,
    r#"<th colspan="7" scope="rowgroup"><bdi>Part 2</bdi></th>"#,
    r#"<td class="number">7</td><td><code>(\0 0 0) (\0 0 0)</code></td><td><code>0</code></td><td class="Full">Full</td><td class="number">1</td><td class="number">20, 1</td><td><code>0</code><div class="note">right</div><div class="note">not decided: a next term would be longer than 24 words</div></td>"#,
    r#"<td class="number">8</td><td><code>#256</code></td><td><code>0</code></td><td class="none">Refused 3</td><td colspan="3"><bdi>left term: a tag is outside 1 to 255; only a default, `_:BODY`, has tag 0, and it binds nothing</bdi></td>"#,
    r#"<td class="number">9</td><td><code>0</code></td><td><code>256</code></td><td class="none">Refused 6</td><td colspan="3"><bdi>right term: a free number, an index less the binders around it, is above 255 (with names: more than 256 are free)</bdi></td>"#,
    r#"<td class="number">10</td><td colspan="2"><code>0 (1 | 0</code></td><td class="none">Not read</td><td colspan="3"><bdi>column 6: expected an index, `(`, `\`, `#`, `?`, `%` or `)`, found `|`</bdi></td>"#,
    r#"<td class="number">11</td><td><code>?#3[5]{_:0,2.1:0}</code></td><td><code>0</code></td><td class="Same">Same</td><td class="number">1</td><td class="number">1, 1</td><td><code>0</code><div class="note">both</div></td>"#,
];

/// What is told of the line that cannot be read.
fn broken(file: &str) -> String {
    let reason = r"expected an index, `(`, `\`, `#`, `?`, `%` or `)`, found `|`";
    format!("judge: {file}, line 10, column 6: {reason}\n    0 (1 | 0\n         ^\n")
}

const LIMITS: [&str; 4] = ["--budget", "5", "--words", "24"];

#[test]
fn a_key_is_printed_as_aligned_text() {
    let key = file("rows.key", KEY);
    let answer = judge(&[&["--key", &key], &LIMITS[..]].concat());
    assert_eq!(answer.output, TEXT);
    assert_eq!(answer.message, broken(&key));
    assert_eq!(answer.status, 1);
}

#[test]
fn a_key_is_printed_as_comma_separated_values() {
    let key = file("rows.csv.key", KEY);
    let answer = judge(&[&["--key", &key, "--format", "csv"], &LIMITS[..]].concat());
    let records = records(&answer.output);
    let fields = |record: &[&str]| {
        record
            .iter()
            .map(|field| field.to_string())
            .collect::<Vec<_>>()
    };
    assert_eq!(records.len(), 9);
    let expected = [
        "3",
        r"\0 1",
        r"\0 2",
        "Different",
        "0",
        "4",
        "4",
        "right",
        r"\0 2",
        "3",
        "4",
        "",
        "",
        "",
        "5",
        "24",
        "",
        "",
    ];
    assert_eq!(records[2], fields(&expected));
    assert_eq!(records[1][17], "a comment");
    let expected = ["8", "#256", "0", "Refused 3"];
    assert_eq!(records[5][..4], fields(&expected));
    assert_eq!(
        (records[5][12].as_str(), records[5][16].as_str()),
        ("left", "Part 2")
    );
    assert_eq!(records[7][3], "Not read");
    assert_eq!(records[8][1], "?#3[5]{_:0,2.1:0}");
    assert_eq!(answer.status, 1);
}

#[test]
fn a_key_is_printed_as_a_page() {
    let key = file("rows.html.key", KEY);
    let answer = judge(&[&["--key", &key, "--format", "html"], &LIMITS[..]].concat());
    let page = answer.output.replace("<tr class=\"label\">", "<tr>");
    let body = page
        .split("<tbody>")
        .nth(1)
        .expect("rows")
        .split("</tbody>")
        .next();
    let rows = body.expect("an end").split("<tr>").skip(1);
    let rows: Vec<&str> = rows
        .map(|row| row.trim_end().trim_end_matches("</tr>"))
        .collect();
    assert_eq!(rows, ROWS);
    assert!(page.contains("<h1>Key: rows.html.key</h1>"));
    assert!(page
        .contains("<p>8 lines: 2 Same, 1 Different, 1 Budget, 1 Full, 2 refused, 1 not read.<br>"));
    assert!(page.contains(
        "Limits: 5 contractions a pair, both sides together; workspaces of 24 words.<br>"
    ));
    assert!(page.contains("Not decided: lines 5, 7 to 10.</p>"));
    // It loads nothing.
    for link in ["src=", "href=", "url(", "@import", "<script"] {
        assert!(!page.contains(link), "{link}");
    }
}

/// Declarations, tabs, signs that mean something in HTML, wide letters, marks, and letters from right to
/// left.
const NAMED: &str = "constructor Nil = 1.0, Cons = 2.2\nlet twice = \\f x. f (f x)\n\
    twice\tg | \\x. g (h x) -- <b> & \"c\"\n\
    变量 e\u{301}' a | 变量 e\u{301}' b\n\
    f \u{5d0}\u{5d1} a | f \u{5d0}\u{5d1} b\n\
    Twice a | a\n";

#[test]
fn a_named_key_in_several_scripts_is_printed() {
    let answer = judge_on(NAMED.as_bytes(), &["--named", "--key", "-"]);
    let rows: Vec<&str> = answer
        .output
        .lines()
        .skip(1)
        .take_while(|line| !line.is_empty())
        .collect();
    let turned = "\u{2068}\u{5d0}\u{5d1}\u{2069}";
    let expected = [
        "    3  Different              1      6      6      4",
        "       --     <b> & \"c\"",
        "       pair   twice g | \\x. g (h x)",
        "       right  \\x. g (h x)",
        "                     ^",
        "       free   g, h",
        "    4  Different              0      5      5      4",
        "       pair   变量 e\u{301}' a | 变量 e\u{301}' b",
        "       right  变量 e\u{301}' b",
        "                      ^",
        "       free   变量, e\u{301}', a, b",
        "    5  Different              0      5      5      4",
        &format!("       pair   \u{200e}f {turned} a | f {turned} b"),
        &format!("       right  \u{200e}f {turned} b"),
        "                   ^",
        &format!("       free   \u{200e}f, {turned}, a, b"),
        "    6  Different              0      3      1      0",
        "       pair   Twice a | a",
        "       right  a",
        "              ^",
        "       free   Twice, a",
        "       note   `Twice` is free; `twice` is declared",
    ];
    assert_eq!(rows, expected);

    let answer = judge_on(
        NAMED.as_bytes(),
        &["--named", "--key", "-", "--format", "csv"],
    );
    let record = &records(&answer.output)[1];
    let expected = [
        "3",
        "twice\tg",
        "\\x. g (h x)",
        "Different",
        "1",
        "6",
        "6",
        "right",
        "\\x. g (h x)",
        "4",
        "8",
        "g h",
        "",
        "",
        "1000",
        "2048",
        "",
        "<b> & \"c\"",
    ];
    assert_eq!(record[..], expected);

    let answer = judge_on(
        NAMED.as_bytes(),
        &["--named", "--key", "-", "--format", "html"],
    );
    for part in [
        "<pre>constructor Nil = 1.0, Cons = 2.2\nlet twice = \\f x. f (f x)</pre>",
        "<tr class=\"label\"><td></td><td colspan=\"6\"><bdi>&lt;b&gt; &amp; &quot;c&quot;</bdi></td></tr>\n\
         <tr><td class=\"number\">3</td><td><code>twice\tg</code></td>",
        "<code>\\x. g (<mark>h</mark> x)</code>",
        "<code>f <bdi>\u{5d0}\u{5d1}</bdi> <mark>b</mark></code>",
        "<div class=\"note\">free: <code>g, h</code></div>",
        "<bdi>`Twice` is free; `twice` is declared</bdi>",
    ] {
        assert!(answer.output.contains(part), "{part}\n{}", answer.output);
    }
}

#[test]
fn a_key_is_read_from_standard_input() {
    let answer = judge_on(KEY.as_bytes(), &[&["--key", "-"], &LIMITS[..]].concat());
    assert_eq!(answer.output, TEXT);
    assert_eq!(answer.message, broken("standard input"));
}

#[test]
fn the_status_says_whether_every_line_was_decided() {
    for (key, status) in [
        ("0 | 0", 0),
        ("0 | 1", 0),
        ("0 | 0\n0 | 1\n", 0),
        (r"0 | (\0 0) (\0 0)", 1),
        (r"0 | (\0 0 0) (\0 0 0)", 1),
        ("0 | 0\n0 | #0", 1),
        ("0 | 0\n0 |", 1),
        ("0", 1),
    ] {
        let answer = judge_on(key.as_bytes(), &["--key", "-"]);
        assert_eq!(answer.status, status, "{key}");
        assert_ne!(answer.output, "", "{key}");
    }
}

#[test]
fn a_file_without_pairs_is_said() {
    for key in ["", "\n\n", "-- 0 | 1\n", "\u{feff}\r\n"] {
        let answer = judge_on(key.as_bytes(), &["--key", "-"]);
        assert_eq!((answer.status, answer.output.as_str()), (2, ""), "{key:?}");
        assert_eq!(
            answer.message,
            "judge: standard input has no pair: a line is LEFT | RIGHT, and `--` starts a comment\n"
        );
    }
}

#[test]
fn a_file_that_cannot_be_read_is_said() {
    let answer = judge(&["--key", "no/such.key"]);
    assert_eq!((answer.status, answer.output.as_str()), (2, ""));
    assert!(
        answer
            .message
            .starts_with("judge: no/such.key cannot be read: "),
        "{}",
        answer.message
    );
}

#[test]
fn line_ends_and_marks_of_other_systems_mean_nothing() {
    let plain = judge_on(b"0 | 0\n0 | 1\n", &["--key", "-"]);
    let marked = judge_on(
        "\u{feff}0 | 0\r\n0\t|\t1 \t\r\n".as_bytes(),
        &["--key", "-"],
    );
    assert_eq!(plain.output, marked.output);
    let old = judge_on(b"0 | 0 -- \r0 | 1\r", &["--key", "-"]);
    assert_eq!(plain.output, old.output);
    assert_eq!(marked.message, "");
}

#[test]
fn broken_lines_are_told_with_their_places() {
    let lines: [(&[u8], &str); 6] = [
        (
            b"0 1",
            "column 4: expected `|` and the right term, found the end; a pair stands on one line\n    0 1\n       ^",
        ),
        (
            b"0 | 1 | 2",
            "column 7: expected the end, found a second `|`\n    0 | 1 | 2\n          ^",
        ),
        (
            b"0 | 1 2)",
            "column 8: expected a space or the end, found `)`\n    0 | 1 2)\n           ^",
        ),
        (
            b"0 | 1 \xff2",
            "column 7: expected UTF-8, found the byte 255; save the file as UTF-8\n    0 | 1 \u{fffd}2\n          ^",
        ),
        (
            "0 | x".as_bytes(),
            "column 5: expected an index, `(`, `\\`, `#`, `?` or `%`, found `x`; names are read with --named\n    \
             0 | x\n        ^",
        ),
        (
            b"| 0",
            "column 1: expected an index, `(`, `\\`, `#`, `?` or `%`, found `|`\n    | 0\n    ^",
        ),
    ];
    for (line, message) in lines {
        let key = [b"-- first\n0 | 0\n", line, b"\n0 | 1\n"].concat();
        let answer = judge_on(&key, &["--key", "-", "--format", "csv"]);
        assert_eq!(
            answer.message,
            format!("judge: standard input, line 3, {message}\n")
        );
        let verdicts: Vec<String> = records(&answer.output)
            .into_iter()
            .map(|mut record| record.remove(3))
            .collect();
        assert_eq!(verdicts, ["verdict", "Same", "Not read", "Different"]);
        assert_eq!(answer.status, 1);
    }
}

#[test]
fn a_pair_that_uses_a_broken_declaration_is_not_judged() {
    let key = b"let one = (\nlet two = %2 \xff\nLet three = %3\nlet four = %4\n  (f x)\nlet five = %5\n\
        one | %1\ntwo | %2\nthree | %3\nfour | %4\nfive | %5\nsix | %6\nlet six = %6\nsix | %6\nseven | %7\n\
        eight n = n\neight | n\nconstructor Nil 1.0, Cons = 2.2\nNil | Nil\nCons | Cons\n";
    let rows = judged(key);
    let declared = |line: u32, name: &str, at: u32| {
        format!("{line} Not read column 1: the declaration of `{name}` on line {at} cannot be read")
    };
    assert_eq!(
        rows[4..12],
        [
            declared(7, "one", 1),
            declared(8, "two", 2),
            declared(9, "three", 3),
            declared(10, "four", 4),
            "11 Same ".to_string(),
            "12 Not read column 1: `six` is declared only on line 13, below its use".to_string(),
            "14 Same ".to_string(),
            "15 Different ".to_string(),
        ]
    );
    assert_eq!(rows[13], declared(17, "eight", 16));
    assert_eq!(
        rows[15..],
        [declared(19, "Nil", 18), declared(20, "Cons", 18)]
    );
}

/// Line, verdict and reason of each row of a named key.
fn judged(key: &[u8]) -> Vec<String> {
    let answer = judge_on(key, &["--named", "--key", "-", "--format", "csv"]);
    let row = |record: &Vec<String>| {
        [&record[0], &record[3], &record[13]]
            .map(String::as_str)
            .join(" ")
    };
    records(&answer.output)[1..].iter().map(row).collect()
}

#[test]
fn a_pair_that_may_go_on_below_is_not_judged() {
    let rest = |line: u32| {
        format!(
            "{line} Not read column 6: line {} may be the rest; a pair stands on one line",
            line + 1
        )
    };
    for below in ["  (g a)", "\tg a"] {
        let key = format!("a | a\na | f\n{below}\na | a\n");
        let rows = judged(key.as_bytes());
        assert_eq!(rows.len(), 4, "{below}");
        assert_eq!((rows[0].as_str(), rows[3].as_str()), ("1 Same ", "4 Same "));
        assert_eq!(rows[1], rest(2), "{below}");
    }
    for below in ["  (f x)", "| f x"] {
        let key = format!("let t = \\f x. f\n{below}\nt | a\n");
        let rows = judged(key.as_bytes());
        assert_eq!(
            rows[1],
            "3 Not read column 1: the declaration of `t` on line 1 cannot be read"
        );
    }
    // A line from the first column on, and one with a pair, a declaration or a comment, is no rest.
    for below in [
        "g a",
        "  b (| b",
        "  let x = (",
        "  y := a",
        "--- (g a)",
        "  -- (g a)",
    ] {
        let key = format!("a | f\n{below}\n\na | a\n");
        assert_eq!(judged(key.as_bytes())[0], "1 Different ", "{below}");
    }
    // In a file that is indented as a whole it must be indented further.
    assert_eq!(judged(b"  a | f\n  g a\n")[0], "1 Different ");
    // Nor is a pair judged that may have started above.
    let rows = judged(b"f x\n  y | f x y\nf x\ny | f x y\n");
    assert_eq!(
        rows[1],
        "2 Not read column 1: line 1 may be its start; a pair stands on one line"
    );
    assert_eq!(rows[3], "4 Different ");
}

#[test]
fn headings_below_each_other_are_one() {
    let key = "--- Part A\n\n--- Question 1\n0 | 0\n--- Question 2\n0 | 0 --- (b)\n";
    let answer = judge_on(key.as_bytes(), &["--key", "-", "--format", "csv"]);
    let rows: Vec<String> = records(&answer.output)[1..]
        .iter()
        .map(|record| record[16..].join(";"))
        .collect();
    assert_eq!(rows, ["Part A, Question 1;", "Question 2;(b)"]);
}

#[test]
fn a_comment_may_hold_any_bytes() {
    let answer = judge_on(b"0 | 0 -- \xff\n-- \xfe\n", &["--key", "-"]);
    assert_eq!((answer.status, answer.message.as_str()), (0, ""));
}

#[test]
fn many_pairs_keep_their_order() {
    let pair = |place: usize| match place % 3 {
        0 => (format!("(\\\\1) {place} 0 | {place}\n"), "Same"),
        1 => (format!("{place} | {}\n", place + 1), "Different"),
        _ => (format!("{place} | (\\0 0) (\\0 0)\n"), "Budget"),
    };
    let key: String = (0..200).map(|place| pair(place).0).collect();
    let answer = judge_on(key.as_bytes(), &["--key", "-", "--format", "csv"]);
    let records = records(&answer.output);
    assert_eq!(records.len(), 201);
    for (place, record) in records[1..].iter().enumerate() {
        assert_eq!(record[0], (place + 1).to_string());
        assert_eq!(record[3], pair(place).1, "{place}");
        if place % 3 < 2 {
            let form = place + place % 3;
            assert_eq!(record[8], form.to_string());
        }
    }
}

#[test]
fn a_term_that_no_table_holds_is_a_row() {
    let long = "\\".repeat(2_048) + "0";
    let key = format!("{long} | 0\n0 | {}\n0 | 1\n", &long[1..]);
    let answer = judge_on(key.as_bytes(), &["--key", "-", "--format", "csv"]);
    let rows: Vec<(String, String)> = records(&answer.output)[1..]
        .iter()
        .map(|record| (record[3].clone(), record[13].clone()))
        .collect();
    let row = |verdict: &str, reason: &str| (verdict.to_string(), reason.to_string());
    assert_eq!(
        rows,
        [
            row(
                "Input",
                "a table holds 2048 words of a term; left has 2049, right 1"
            ),
            row("Different", ""),
            row("Different", ""),
        ]
    );
}

#[test]
fn limits_out_of_range_are_refused_in_every_row() {
    for (limits, verdict, reason) in [
        (
            ["--words", "15"],
            "Refused 7",
            "C, the words in each workspace, is 15 and must be 16 to 2048",
        ),
        (
            ["--words", "2049"],
            "Refused 7",
            "C, the words in each workspace, is 2049 and must be 16 to 2048",
        ),
        (
            ["--words", "4294967295"],
            "Refused 7",
            "C, the words in each workspace, is 4294967295 and must be 16 to 2048",
        ),
        (
            ["--budget", "1000001"],
            "Refused 9",
            "the budget is 1000001 and must be at most 1000000",
        ),
    ] {
        let answer = judge_on(
            b"0 | 0\n0 | 1\n",
            &[&["--key", "-", "--format", "csv"], &limits[..]].concat(),
        );
        for record in &records(&answer.output)[1..] {
            assert_eq!((record[3].as_str(), record[13].as_str()), (verdict, reason));
        }
        assert_eq!(answer.status, 1);
    }
}

#[test]
fn a_long_form_is_cut_around_its_mark() {
    let row = |answer: &str| -> Vec<String> {
        answer.lines().skip(3).take(2).map(str::to_string).collect()
    };
    let long = |middle: &str| format!("{}{middle}{}", "0 ".repeat(100), " 0".repeat(100));
    let key = format!("{} | {}\n", long("7"), long("8"));
    let lines = row(&judge_on(key.as_bytes(), &["--key", "-"]).output);
    let form = lines[0].trim_start();
    assert!(
        form.starts_with("right  ..") && form.ends_with(".."),
        "{form}"
    );
    let column = lines[1].find('^').expect("a caret");
    assert_eq!(&lines[0][column..=column], "8");
    assert!(lines[0].len() < 80);
    // A form that nothing is marked in is cut at its end.
    let key = format!("{} | {}\n", long("7"), long("7"));
    let lines = row(&judge_on(key.as_bytes(), &["--key", "-"]).output);
    let form = lines[0].trim_start();
    assert!(
        form.starts_with("both   0 0") && form.ends_with(".."),
        "{form}"
    );
    assert_eq!(form.len(), "both   ".len() + 60 + "..".len());
    // However many marks are drawn on a letter, the word that differs is seen.
    let letter = format!("e{}", "\u{301}".repeat(200));
    let key = format!("f {letter} a | f {letter} b\n");
    let answer = judge_on(key.as_bytes(), &["--named", "--key", "-"]);
    assert!(row(&answer.output)[0].ends_with(" b"), "{}", answer.output);
}

/// The marked parts of a key's page, row by row.
fn marks(key: &str, notation: &[&str]) -> Vec<String> {
    let arguments = [&["--key", "-", "--format", "html"], notation].concat();
    let page = judge_on(key.as_bytes(), &arguments).output;
    let parts = page.split("<mark>").skip(1);
    parts
        .map(|part| part.split("</mark>").next().expect("an end").to_string())
        .collect()
}

#[test]
fn the_first_difference_is_marked_whatever_word_it_is() {
    // Pairs, and the mark in the shorter form, the right one at equal lengths.
    for (pair, mark) in [
        (r"\0 1 | \0 2", "2"),
        (r"0 | \0", "0"),
        (r"\0 | 0 1", r"\"),
        ("#1[2,3] | 0 1", "0 1"),
        ("0 #1[2,3] | 0 (1 2)", "1 2"),
        ("0 1 | #1[2,3]", "#1"),
        ("?1{1.0:2} | ?1{2.0:2}", "2.0:"),
        ("?1{1.0:2} | ?1{_:2}", "_:"),
        (r"\?0{} | \0 1", "?"),
        ("?0{_:1,3.0:2} | ?0{_:1,3.0:4}", "4"),
    ] {
        assert_eq!(marks(pair, &[]), [mark], "{pair}");
    }
    for (pair, mark) in [
        ("\\x y. x | \\x. a", "a"),
        ("\\x. a b | \\x y. x", "y"),
        ("a b | \\x y. x", "\\x"),
        ("Cons a Nil | Cons b Nil", "b"),
        ("f (Cons a Nil) | f (a b)", "a b"),
        ("f (a b c) | f (Cons a Nil)", "Cons"),
        (
            "case l of {Nil -> a; Cons h t -> h} | case l of {Nil -> a; Cons h t -> t}",
            "y",
        ),
        (
            "case l of {Nil -> a; _ -> b} | case l of {_ -> c; Nil -> a}",
            "c",
        ),
        ("case l of {Nil -> a} | case l of {_ -> a}", "_ -&gt;"),
        (
            "case l of {Cons h t -> a} | case l of {Cons h t -> case l of {}}",
            "a",
        ),
        ("l a b c | case l of {}", "case"),
    ] {
        let key = format!("constructor Nil = 1.0, Cons = 2.2\n{pair}\n");
        assert_eq!(marks(&key, &["--named"]), [mark], "{pair}");
    }
}

/// Generated pairs as text, with some that the unit refuses and some that are no terms.
fn generated(count: u64) -> Vec<(String, Option<String>)> {
    let text = |term: &reference::term::Term| {
        let term = unit::Term::from_words(&reference::words::words(term));
        term.expect("words of a term")
    };
    let line = |case: u64| {
        let trial = reference::generate::pairs::trial(&mut Random::new(5, case), None);
        let (left, right) = (text(&trial.left), text(&trial.right));
        match case % 10 {
            1 => ("0 | 0 #0".to_string(), Some("Refused 3".to_string())),
            3 => (format!("0 #0 | {right}"), Some("Refused 3".to_string())),
            5 => (format!("{left} {right} ("), None),
            9 => (
                format!("{} | {right}", "\\".repeat(2_048) + "0"),
                Some("Input".to_string()),
            ),
            7 => (format!("256 | {right}"), Some("Refused 6".to_string())),
            _ => {
                let input = unit::program::input(300, 200, &left, &right);
                let outcome = reference::verdict::outcome(&input).to_string();
                (
                    format!("{left} | {right}"),
                    Some(outcome.trim_end().to_string()),
                )
            }
        }
    };
    reference::on_large_stack(|| (0..count).map(line).collect())
}

#[test]
fn generated_pairs_have_the_line_of_the_reference() {
    let lines = generated(400);
    let key: String = lines.iter().map(|(line, _)| format!("{line}\n")).collect();
    let limits = ["--budget", "300", "--words", "200"];
    let arguments = [&["--key", "-", "--format", "csv"], &limits[..]].concat();
    let records = records(&judge_on(key.as_bytes(), &arguments).output);
    assert_eq!(records.len(), 401);
    for (record, (line, expected)) in records[1..].iter().zip(&lines) {
        let fields = [&record[3..7], &record[9..10]].concat();
        let found = fields.join(" ");
        let expected = expected.as_deref().unwrap_or("Not read");
        assert_eq!(found.trim_end(), expected, "{line}");
    }
    for verdict in ["Same", "Different", "Budget", "Full", "Refused 8"] {
        let is_it = |(_, line): &&(String, Option<String>)| {
            line.as_ref().is_some_and(|line| line.starts_with(verdict))
        };
        assert!(lines.iter().filter(is_it).count() > 2, "{verdict}");
    }
}

/// Bytes that look random, from a fixed start.
fn bytes(seed: u64, count: usize) -> Vec<u8> {
    let mut state = seed.wrapping_mul(0x9e37_79b9_7f4a_7c15) | 1;
    let alphabet = b"01 |\\()#[]?{}.,:_%\n\n-;=xyz\xce\xbb\xff";
    let mut next = || {
        state ^= state << 13;
        state ^= state >> 7;
        state ^= state << 17;
        state
    };
    let byte = |random: u64| match random % 4 {
        0 => (random >> 8) as u8,
        _ => alphabet[(random >> 8) as usize % alphabet.len()],
    };
    (0..count).map(|_| byte(next())).collect()
}

#[test]
fn random_bytes_are_told_and_never_stop_the_command() {
    for seed in 0..60 {
        let key = bytes(seed, 2_000);
        for notation in [&[][..], &["--named"]] {
            let arguments = [&["--key", "-", "--format", "csv"], notation].concat();
            let answer = judge_on(&key, &arguments);
            assert!(
                (0..=2).contains(&answer.status),
                "{seed}: {}",
                answer.message
            );
            let rows = records(&answer.output).len() - 1;
            assert!(rows > 0, "{seed}");
        }
    }
}
