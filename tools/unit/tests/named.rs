//! The notation with names, against expectations worked out by hand from its grammar. Each term is
//! compared with the same one in the notation of indices.

use unit::limits::MAX_ARGUMENTS;
use unit::{NameError, Names, Printed, Term};

const LISTS: &str = "constructor Nil = 1.0, Cons = 2.2";

fn lists() -> Names {
    let mut names = Names::new();
    names.declare(LISTS, 1).expect(LISTS);
    names
}

fn after(lines: &[&str]) -> Names {
    let mut names = Names::new();
    for (number, line) in (1..).zip(lines) {
        names
            .declare(line, number)
            .unwrap_or_else(|error| panic!("{line}: {error}"));
    }
    names
}

fn index(text: &str) -> Term {
    text.parse()
        .unwrap_or_else(|error| panic!("{text}: {error}"))
}

fn shown(error: NameError) -> String {
    format!("{}: {}", error.column, error.reason)
}

/// Reads a term with these names; it must be the one that the indices write, and be printed so that it
/// is read again.
#[track_caller]
fn reads(names: &mut Names, text: &str, indices: &str, free: &[&str]) -> Printed {
    let mut found = Vec::new();
    let term = names
        .term(text, &mut found, 9)
        .unwrap_or_else(|error| panic!("{text}: {error}"));
    assert_eq!(term, index(indices), "{text} is {term}");
    assert_eq!(found, free, "{text}");
    let printed = names.printed(&term, &found);
    let again = names.term(&printed.text, &mut found, 9);
    assert_eq!(again.as_ref(), Ok(&term), "{}", printed.text);
    assert_eq!(found, free, "{text}");
    printed
}

/// The place and reason of a term's error, which leaves everything as it was.
#[track_caller]
fn term_error(names: &mut Names, text: &str) -> String {
    let mut free = vec!["before".to_string()];
    let error = names.term(text, &mut free, 9).expect_err(text);
    assert_eq!(free, ["before"]);
    shown(error)
}

#[track_caller]
fn line_error(names: &mut Names, line: &str) -> String {
    shown(names.declare(line, 9).expect_err(line))
}

#[test]
fn names_are_bound_by_the_innermost_binder() {
    let names = &mut Names::new();
    reads(names, r"\x. x", r"\0", &[]);
    reads(names, "λx.x", r"\0", &[]);
    reads(names, r"\x y. x", r"\\1", &[]);
    reads(names, r"\x.\y.x", r"\\1", &[]);
    reads(names, r"\x x. x", r"\\0", &[]);
    reads(names, r"\x. (\x. x) x", r"\(\0) 0", &[]);
    reads(names, r"\_. \x _. x", r"\\\1", &[]);
    reads(names, r"(\x. x) x", r"(\0) 0", &["x"]);
}

#[test]
fn free_names_are_numbered_as_they_appear() {
    let names = &mut Names::new();
    reads(names, "f a b", "0 1 2", &["f", "a", "b"]);
    reads(names, r"b (\x. a x b)", r"0 (\2 0 1)", &["b", "a"]);
    let mut free = Vec::new();
    let left = names.term("g a", &mut free, 1).expect("a term");
    let right = names.term("c (a g)", &mut free, 1).expect("a term");
    assert_eq!((left, right), (index("0 1"), index("2 (1 0)")));
    assert_eq!(free, ["g", "a", "c"]);
}

#[test]
fn application_groups_to_the_left_and_needs_no_blank() {
    let names = &mut Names::new();
    reads(names, "f(x)", "0 1", &["f", "x"]);
    reads(names, "(f)x(y)z", "0 1 2 3", &["f", "x", "y", "z"]);
    reads(names, r"f\x.x x", r"0 \0 0", &["f"]);
    reads(names, "fλx.x x", r"0 \0 0", &["f"]);
    reads(names, "f case x of {} y", "0 ?1{} 2", &["f", "x", "y"]);
    reads(names, " \tf\n(\r\nx ) ", "0 1", &["f", "x"]);
}

#[test]
fn numerals() {
    let names = &mut Names::new();
    reads(names, "%0", "%0", &[]);
    reads(names, "%31 %2", "%31 %2", &[]);
    reads(names, "f%2(%3)", "0 %2 %3", &["f"]);
    reads(names, "% 2", "%2", &[]);
}

#[test]
fn constructors_take_their_arguments() {
    let names = &mut lists();
    reads(names, "Nil", "#1", &[]);
    reads(names, "(Nil) x", "#1 0", &["x"]);
    reads(names, "f Nil Nil", "0 #1 #1", &["f"]);
    reads(names, "Cons a (Cons b Nil)", "#2[0,#2[1,#1]]", &["a", "b"]);
    reads(names, "(Cons a b) c", "#2[0,1] 2", &["a", "b", "c"]);
    reads(names, r"Cons a \x. x a", r"#2[0,\0 1]", &["a"]);
    reads(names, "f (Cons a Nil) b", "0 #2[1,#1] 2", &["f", "a", "b"]);
    reads(names, "((Cons (a b) %3))", "#2[0 1,%3]", &["a", "b"]);
    let text = "case Cons a b of {Nil -> Cons a b}";
    reads(names, text, "?#2[0,1]{1.0:#2[0,1]}", &["a", "b"]);
}

#[test]
fn branches_are_put_in_the_order_of_their_tags() {
    let names = &mut lists();
    reads(names, "case x of {}", "?0{}", &["x"]);
    reads(names, "case x of {_ -> y}", "?0{_:1}", &["x", "y"]);
    reads(
        names,
        "case x of{Nil→a;Cons y z->y}",
        "?0{1.0:1,2.2:1}",
        &["x", "a"],
    );
    reads(
        names,
        "case x of {Cons y z -> z y; Nil -> a}",
        "?0{1.0:1,2.2:0 1}",
        &["x", "a"],
    );
    reads(
        names,
        "case x of {Cons y _ -> y; _ -> b; Nil -> a}",
        "?0{_:1,1.0:2,2.2:1}",
        &["x", "b", "a"],
    );
    reads(
        names,
        r"\l. case case l of {Cons x y -> y; _ -> l} of {Cons _ l -> case l of {Nil -> l; _ -> x}; Nil -> l}",
        r"\??0{_:0,2.2:0}{1.0:0,2.2:?0{_:3,1.0:0}}",
        &["x"],
    );
}

#[test]
fn definitions_are_put_in_place() {
    let names = &mut after(&[
        LISTS,
        r"let i = \x. x",
        "let k = y",
        r"let pair = \f. f k y z",
        r"let both = Cons i k",
    ]);
    reads(names, "i", r"\0", &[]);
    reads(names, "i i", r"(\0) \0", &[]);
    reads(names, r"f i a", r"0 (\0) 1", &["f", "a"]);
    // Neither binder binds the name that is free in the definition.
    reads(names, r"\y. k y", r"\1 0", &["y"]);
    reads(names, r"\z y. pair", r"\\\0 3 3 4", &["y", "z"]);
    reads(names, r"z pair", r"0 \0 2 2 1", &["z", "y"]);
    reads(names, r"f both both", r"0 #2[\0,1] #2[\0,1]", &["f", "y"]);
    // A binder with the name of a definition shadows it.
    reads(names, r"\i. i", r"\0", &[]);
    reads(names, "case a of {Cons k i -> k}", "?0{2.2:1}", &["a"]);
    // The definition of a name may bind it.
    names
        .declare(r"let self = \self. self", 6)
        .expect("a definition");
    reads(names, "self", r"\0", &[]);
}

#[test]
fn names_of_any_script() {
    let scripts = [
        "αβγ",
        "дом",
        "قيمة",
        "ערך",
        "क्षेत्र",
        "变量",
        "ตัวแปร",
        "x'",
        "x_1",
        "é",
        "e\u{301}",
        "ñandú2",
        "می\u{200c}خواهم",
        "क\u{94d}\u{200d}ष",
        "Λ",
        "lambda",
        "caseof",
        "letter",
        "x²",
    ];
    for name in scripts {
        let names = &mut Names::new();
        reads(names, &format!("{name} {name}"), "0 0", &[name]);
        reads(names, &format!("\\{name}. {name}"), r"\0", &[]);
        reads(names, &format!("λ{name} a.({name})"), r"\\1", &[]);
        let line = format!("let {name} = \\{name}. {name}");
        let names = &mut Names::new();
        names.declare(&line, 1).expect(&line);
        reads(names, name, r"\0", &[]);
        let line = format!("constructor {name}1 = 7.1");
        names.declare(&line, 2).expect(&line);
        reads(names, &format!("{name}1 {name}"), r"#7[\0]", &[]);
    }
    // Names are compared character by character.
    reads(&mut Names::new(), "é e\u{301}", "0 1", &["é", "e\u{301}"]);
}

#[test]
fn a_declaration_begins_with_its_word() {
    for line in [
        "let",
        " let x",
        "\tconstructor",
        "let(",
        "constructor=",
        "let=",
    ] {
        assert!(Names::is_declaration(line), "{line}");
    }
    for line in [
        "",
        "x",
        "letter",
        "let'",
        "let2",
        "constructors",
        "(let",
        "case",
        "3",
        "3let",
        "λ",
    ] {
        assert!(!Names::is_declaration(line), "{line}");
    }
}

#[test]
fn printed_terms() {
    let names = &mut after(&[LISTS, r"let y = \x. x", "constructor u = 3.1"]);
    for (text, printed) in [
        (r"\a. \b. a (b a)", r"\x z. x (z x)"),
        (r"(\a. a) \a. a", r"(\x. x) \x. x"),
        (r"a (\b. b) c", r"a (\x. x) c"),
        (r"x \a b c d e f g h. h", r"x \z v w x1 y1 z1 u1 v1. v1"),
        ("(Cons a b) (Cons a (c d))", "(Cons a b) (Cons a (c d))"),
        (r"f (Cons a (\b. b))", r"f (Cons a \x. x)"),
        (r"Cons (\b. b) a", r"Cons (\x. x) a"),
        ("(Nil) Nil (u %3)", "(Nil) Nil (u %3)"),
        (
            r"\s. case (s) of {_ -> \a. a; Cons a b → b a; Nil -> (s)}",
            r"\x. case x of {Nil -> x; Cons z v -> v z; _ -> \z. z}",
        ),
        (
            "f (case a of {}) (case b of {})",
            "f case a of {} case b of {}",
        ),
    ] {
        let mut free = Vec::new();
        let term = names.term(text, &mut free, 0).expect(text);
        assert_eq!(names.printed(&term, &free).text, printed);
        assert_eq!(names.term(printed, &mut free, 0), Ok(term));
    }
}

#[test]
fn what_has_no_name_is_printed_all_the_same() {
    let names = lists();
    for (indices, printed) in [
        ("7", "free7"),
        (r"\0 1 2", r"\x. x a free1"),
        ("#3[0,1] #1[2]", "(#3 a free1) (#1 free2)"),
        (
            "?#9{1.2:0,_:1,7.1:0,_:0}",
            "case #9 of {#1 x y -> y; #7 x -> x; _ -> free1; _ -> a}",
        ),
        ("?0{0.1:0}", "case a of {#0 x -> x}"),
    ] {
        let free = ["a".to_string()];
        assert_eq!(names.printed(&index(indices), &free).text, printed);
    }
}

/// What each word's span shows.
fn spans(printed: &Printed) -> Vec<&str> {
    let spans = printed.spans.iter();
    spans.map(|span| &printed.text[span.clone()]).collect()
}

#[test]
fn spans_show_each_word() {
    let printed = index(r"\(\0 #1) (?#2[0,%3]{_:1,2.2:0 1})").printed();
    assert_eq!(printed.text, r"\(\0 #1) ?#2[0,%3]{_:1,2.2:0 1}");
    let expected = [
        r"\",
        r"(\0 #1) ?#2[0,%3]{_:1,2.2:0 1}",
        r"\",
        "0 #1",
        "0",
        "#1",
        "?",
        "#2",
        "0",
        "%3",
        "_:",
        "1",
        "2.2:",
        "0 1",
        "0",
        "1",
    ];
    assert_eq!(spans(&printed), expected);
    let names = &mut lists();
    let text = r"\x y. (\z. z Nil) (f (case Cons y %3 of {_ -> x; Cons z u -> u g}))";
    let printed = reads(
        names,
        text,
        r"\\(\0 #1) (2 ?#2[0,%3]{_:1,2.2:0 5})",
        &["f", "g"],
    );
    assert_eq!(
        printed.text,
        r"\x y. (\z. z Nil) (f case Cons y %3 of {Cons z u -> u g; _ -> x})"
    );
    let expected = [
        r"\x",
        "y",
        r"(\z. z Nil) (f case Cons y %3 of {Cons z u -> u g; _ -> x})",
        r"\z",
        "z Nil",
        "z",
        "Nil",
        "f case Cons y %3 of {Cons z u -> u g; _ -> x}",
        "f",
        "case",
        "Cons",
        "y",
        "%3",
        "_ ->",
        "x",
        "Cons z u ->",
        "u g",
        "u",
        "g",
    ];
    assert_eq!(spans(&printed), expected);
}

/// The rows of docs/NOTATION.md that have a term in both notations.
#[test]
fn the_document_is_right() {
    let mut rows = 0;
    for line in include_str!("../../../docs/NOTATION.md").lines() {
        let columns: Vec<&str> = line.split(" | ").collect();
        let [text, indices, _] = columns[..] else {
            continue;
        };
        let code = |column: &str| Some(column.strip_prefix('`')?.strip_suffix('`')?.to_string());
        let Some((text, indices)) = code(&text[2..]).zip(code(indices)) else {
            continue;
        };
        let read = lists().term(&text, &mut Vec::new(), 1);
        assert_eq!(read, Ok(index(&indices)), "{text}");
        rows += 1;
    }
    assert_eq!(rows, 9);
}

const ITEM: &str = r"a name, `(`, `\`, `%` or `case`";
const ITEMS: &str = r"a name, `(`, `\`, `%`, `case`";

#[test]
fn an_item_is_missing() {
    for (text, column, found) in [
        ("", 1, "the end"),
        (" ", 2, "the end"),
        ("()", 2, "`)`"),
        (r"\x.", 4, "the end"),
        ("case", 5, "the end"),
        ("case of {}", 6, "the reserved word `of`"),
        ("let x", 1, "the reserved word `let`"),
        ("_", 1, "`_`"),
        ("#1", 1, "`#`"),
        ("-- x", 1, "`-`"),
        ("-> x", 1, "`->`"),
        ("→ x", 1, "`→`"),
        ("'x", 1, "`'`"),
        ("\u{301}", 1, r"`\u{301}`"),
        ("\u{feff}x", 1, r"`\u{feff}`"),
        ("\u{200d}x", 1, r"`\u{200d}`"),
        ("٣", 1, "`٣`"),
        ("case x of {_ -> }", 17, "`}`"),
    ] {
        let expected = format!("{column}: expected {ITEM}, found {found}");
        assert_eq!(term_error(&mut lists(), text), expected, "{text}");
    }
}

#[test]
fn a_plain_number_is_no_variable() {
    for (text, column, number) in [("3", 1, "3"), ("f 12", 3, "12"), ("(0)", 2, "0")] {
        let expected = format!(
            "{column}: expected {ITEM}, found {number}; \
             names stand for variables, and a numeral is written `%{number}`"
        );
        assert_eq!(term_error(&mut lists(), text), expected, "{text}");
    }
}

#[test]
fn a_term_does_not_end_as_it_must() {
    let names = &mut lists();
    for (text, reason) in [
        ("x)", format!("2: expected {ITEMS} or the end, found `)`")),
        (
            "x | y",
            format!("3: expected {ITEMS} or the end, found `|`"),
        ),
        (
            "x -- y",
            format!("3: expected {ITEMS} or the end, found `-`"),
        ),
        (
            "x\u{202e}y",
            format!(r"2: expected {ITEMS} or the end, found `\u{{202e}}`"),
        ),
        (
            "x\u{ad}y",
            format!(r"2: expected {ITEMS} or the end, found `\u{{ad}}`"),
        ),
        (
            "x\u{a0}y",
            format!(r"2: expected {ITEMS} or the end, found `\u{{a0}}`"),
        ),
        ("x _", format!("3: expected {ITEMS} or the end, found `_`")),
        (
            "x = y",
            format!("3: expected {ITEMS} or the end, found `=`"),
        ),
        (
            "x of",
            format!("3: expected {ITEMS} or the end, found the reserved word `of`"),
        ),
        ("(x", format!("3: expected {ITEMS} or `)`, found the end")),
        (r"(\x. x]", format!("7: expected {ITEMS} or `)`, found `]`")),
        (
            "case x {}",
            format!("8: expected {ITEMS} or `of`, found `{{`"),
        ),
        ("case x of", "10: expected `{`, found the end".to_string()),
        ("case x of y", "11: expected `{`, found `y`".to_string()),
        (
            "case x of {_ -> y",
            format!("18: expected {ITEMS}, `;` or `}}`, found the end"),
        ),
        (
            "case x of {_ -> y, Nil -> x}",
            format!("18: expected {ITEMS}, `;` or `}}`, found `,`"),
        ),
        ("Cons x y)", "9: expected the end, found `)`".to_string()),
        ("(Cons x y", "10: expected `)`, found the end".to_string()),
    ] {
        assert_eq!(term_error(names, text), reason, "{text}");
    }
}

#[test]
fn a_binder_is_not_as_it_must_be() {
    let names = &mut lists();
    for (text, reason) in [
        (r"\. x", "2: expected a name or `_`, found `.`"),
        (r"\", "2: expected a name or `_`, found the end"),
        (r"\(x). x", "2: expected a name or `_`, found `(`"),
        (r"\3. x", "2: expected a name or `_`, found 3"),
        ("λλ. x", "2: expected a name or `_`, found `λ`"),
        (
            r"\of. x",
            "2: expected a name or `_`, found the reserved word `of`",
        ),
        (r"\x", "3: expected a name, `_` or `.`, found the end"),
        (r"\x, y. x", "3: expected a name, `_` or `.`, found `,`"),
        (r"\x y -> x", "6: expected a name, `_` or `.`, found `->`"),
        (
            r"\x Nil. x",
            "4: `Nil` is a constructor and cannot be bound",
        ),
        (
            r"case x of {Cons Nil y -> y}",
            "17: `Nil` is a constructor and cannot be bound",
        ),
    ] {
        assert_eq!(term_error(names, text), reason, "{text}");
    }
}

#[test]
fn a_numeral_is_not_as_it_must_be() {
    let names = &mut lists();
    for (text, reason) in [
        ("%", "2: expected a numeral, found the end"),
        ("%x", "2: expected a numeral, found `x`"),
        ("%32", "2: expected a numeral, at most 31, found 32"),
        (
            "%99999999999",
            "2: expected a numeral, at most 31, found 99999999999",
        ),
        (
            "f %01",
            "4: expected a numeral without leading zeros, found 01",
        ),
        ("%3x", "3: expected a space behind the number, found `x`"),
        (
            "%3of",
            "3: expected a space behind the number, found the reserved word `of`",
        ),
    ] {
        assert_eq!(term_error(names, text), reason, "{text}");
    }
}

#[test]
fn a_constructor_has_other_arguments_than_it_takes() {
    let names = &mut after(&[LISTS, "constructor S = 3.1"]);
    for (text, reason) in [
        ("Cons", "5: expected argument 1 of `Cons`, which takes 2 arguments, found the end"),
        ("Cons a", "7: expected argument 2 of `Cons`, which takes 2 arguments, found the end"),
        ("f (Cons a)", "10: expected argument 2 of `Cons`, which takes 2 arguments, found `)`"),
        ("(Cons) a b", "6: expected argument 1 of `Cons`, which takes 2 arguments, found `)`"),
        (r"Cons \x. x", "11: expected argument 2 of `Cons`, which takes 2 arguments, found the end"),
        ("S", "2: expected argument 1 of `S`, which takes 1 argument, found the end"),
        (
            "Cons a b c",
            "10: `Cons` takes 2 arguments, and this is one more; to apply it, put it in parentheses",
        ),
        (
            "S a (b)",
            "5: `S` takes 1 argument, and this is one more; to apply it, put it in parentheses",
        ),
        ("f Cons a b", "3: `Cons` with its 2 arguments must stand in parentheses here"),
        ("S S a", "3: `S` with its 1 argument must stand in parentheses here"),
    ] {
        assert_eq!(term_error(names, text), reason, "{text}");
    }
}

#[test]
fn a_branch_is_not_as_it_must_be() {
    let names = &mut after(&[LISTS, r"let i = \x. x"]);
    for (text, reason) in [
        (
            "case x of {",
            "12: expected a constructor, `_` or `}`, found the end",
        ),
        (
            "case x of {3",
            "12: expected a constructor, `_` or `}`, found 3",
        ),
        (
            "case x of {;}",
            "12: expected a constructor, `_` or `}`, found `;`",
        ),
        (
            "case x of {Z -> y}",
            "12: expected a constructor, `_` or `}`, found `Z`, which is none",
        ),
        (
            "case x of {i -> y}",
            "12: expected a constructor, `_` or `}`, found `i`, which is none",
        ),
        (
            "case x of {_ -> y;}",
            "19: expected a constructor or `_`, found `}`",
        ),
        (
            "case x of {_ -> y; y -> x}",
            "20: expected a constructor or `_`, found `y`, which is none",
        ),
        ("case x of {_ y -> y}", "14: expected `->`, found `y`"),
        ("case x of {_ = y}", "14: expected `->`, found `=`"),
        (
            "case x of {Nil y -> y}",
            "16: expected `->` (`Nil` takes no argument), found `y`",
        ),
        (
            "case x of {Cons y z u -> y}",
            "21: expected `->` (`Cons` takes 2 arguments), found `u`",
        ),
        (
            "case x of {Cons y -> y}",
            "19: expected a name or `_` for argument 2 of `Cons`, found `->`",
        ),
        (
            "case x of {Cons y y -> y}",
            "19: this branch binds `y` already",
        ),
        (
            "case x of {Nil -> y; Nil -> x}",
            "22: this case has a branch for `Nil` already",
        ),
        (
            "case x of {_ -> y; Nil -> x; _ -> x}",
            "30: this case has a default already",
        ),
    ] {
        assert_eq!(term_error(names, text), reason, "{text}");
    }
}

#[test]
fn a_declaration_is_not_as_it_must_be() {
    let names = &mut after(&[LISTS, r"let i = \x. free"]);
    names.term("f g", &mut Vec::new(), 3).expect("a term");
    for (line, reason) in [
        ("", "1: expected `let` or `constructor`, found the end"),
        ("x = y", "1: expected `let` or `constructor`, found `x`"),
        ("let", "4: expected a name, found the end"),
        ("let _ = x", "5: expected a name, found `_`"),
        (
            "let of = x",
            "5: expected a name, found the reserved word `of`",
        ),
        ("let x", "6: expected `=`, found the end"),
        (r"let x y = y", "7: expected `=`, found `y`"),
        ("let Nil = x", "5: `Nil` is already declared on line 1"),
        ("let i = x", "5: `i` is already declared on line 2"),
        (
            "let f = x",
            "5: `f` stands for a free variable on line 3; declare it before its first use",
        ),
        (
            "constructor free = 9.0",
            "13: `free` stands for a free variable on line 2; declare it before its first use",
        ),
        (
            r"let x = \y. y x",
            "15: `x` is used in its own definition; recursion takes a fixpoint combinator",
        ),
        ("constructor", "12: expected a name, found the end"),
        ("constructor A", "14: expected `=`, found the end"),
        ("constructor A = ", "17: expected a tag, found the end"),
        (
            "constructor A = 0.1",
            "17: expected a tag, at least 1, found 0",
        ),
        (
            "constructor A = 256.1",
            "17: expected a tag, at most 255, found 256",
        ),
        (
            "constructor A = 03.1",
            "17: expected a tag without leading zeros, found 03",
        ),
        ("constructor A = 3", "18: expected `.`, found the end"),
        (
            "constructor A = 3.",
            "19: expected a count of arguments, found the end",
        ),
        (
            "constructor A = 3.00",
            "19: expected a count of arguments without leading zeros, found 00",
        ),
        (
            "constructor A = 3.0x",
            "20: expected a space behind the number, found `x`",
        ),
        (
            "constructor A = 3.0 x",
            "21: expected `,` or the end, found `x`",
        ),
        ("constructor A = 3.0,", "21: expected a name, found the end"),
        (
            "constructor A = 2.0",
            "17: tag 2 is already declared on line 1, for `Cons`",
        ),
        (
            "constructor A = 3.0, B = 3.1",
            "26: tag 3 is already declared on line 9, for `A`",
        ),
        (
            "constructor A = 3.0, A = 4.1",
            "22: `A` is already declared on line 9",
        ),
        (
            "constructor A = 3.0, i = 4.1",
            "22: `i` is already declared on line 2",
        ),
    ] {
        assert_eq!(line_error(names, line), reason, "{line}");
    }
    let more = MAX_ARGUMENTS + 1;
    let count = format!("19: expected a count of arguments, at most {MAX_ARGUMENTS}, found {more}");
    let line = format!("constructor A = 3.{more}");
    assert_eq!(line_error(names, &line), count);
    let item = format!("8: expected {ITEM}, found the end");
    assert_eq!(line_error(names, "let x ="), item);
    // What failed has left nothing behind.
    names
        .declare("constructor A = 3.0, B = 4.1", 5)
        .expect("a declaration");
    names.declare("let x = B A", 6).expect("a declaration");
    reads(names, "x", "#4[#3]", &[]);
}

#[test]
fn what_has_no_line_is_told_without_one() {
    let names = &mut Names::new();
    names
        .declare("constructor A = 1.0", 0)
        .expect("a declaration");
    names.term("f", &mut Vec::new(), 0).expect("a term");
    assert_eq!(line_error(names, "let A = x"), "5: `A` is already declared");
    assert_eq!(
        line_error(names, "let f = x"),
        "5: `f` stands for a free variable; declare it before its first use"
    );
    assert_eq!(
        line_error(names, "constructor B = 1.0"),
        "17: tag 1 is already declared, for `A`"
    );
}

#[test]
fn a_failed_term_uses_no_name() {
    let names = &mut lists();
    term_error(names, "a b c (");
    names.declare("let a = %1", 2).expect("a declaration");
    line_error(names, "let d = e e )");
    names.declare("let e = %1", 3).expect("a declaration");
    reads(names, "a e", "%1 %1", &[]);
}

#[test]
fn a_long_name_is_cut_in_a_message() {
    let name = "n".repeat(255);
    assert_eq!(
        term_error(&mut lists(), &format!("case x of {{{name}")),
        format!(
            "12: expected a constructor, `_` or `}}`, found `{}..`, which is none",
            "n".repeat(40)
        )
    );
    assert_eq!(
        term_error(&mut lists(), &format!("x {name}n")),
        "3: a name has at most 255 characters"
    );
}

#[test]
fn nesting_has_no_limit() {
    let deep = 1_000_000;
    let names = &mut lists();
    let parenthesised = format!("{}x{}", "(".repeat(deep), ")".repeat(deep));
    reads(names, &parenthesised, "0", &["x"]);
    let unclosed = "(".repeat(deep);
    let expected = format!("{}: expected {ITEM}, found the end", deep + 1);
    assert_eq!(term_error(names, &unclosed), expected);
    let left = format!("{}x{}", "(".repeat(20_000), " x)".repeat(20_000));
    reads(names, &left, &format!("0{}", " 0".repeat(20_000)), &["x"]);
    // The 65,537th word of each is one too many.
    let over = "up to here the term has more than 65536 words";
    for (before, words, within) in [
        (r"\x.", 1, 1),
        ("case ", 1, 0),
        ("x (", 2, 0),
        ("(Nil) Nil (", 4, 1),
    ] {
        let column = 65_536 / words * before.len() + 1 + within;
        let error = term_error(names, &before.repeat(deep));
        assert_eq!(error, format!("{column}: {over}"), "{before}");
    }
    let error = term_error(names, &format!(r"\{}", "x ".repeat(deep)));
    assert_eq!(error, format!("{}: {over}", 65_536 * 2 + 2));
}

#[test]
fn the_longest_terms_are_printed_and_read() {
    let names = &mut lists();
    let binders = 65_535;
    let text = format!(r"{}x", r"\x.".repeat(binders));
    reads(names, &text, &format!("{}0", r"\".repeat(binders)), &[]);
    for (before, after, indices, behind) in [
        ("case ", " of {}", "?", "{}"),
        ("Cons Nil (", ")", "#2[#1,", "]"),
        ("f (", ")", "0 (", ")"),
        (
            "case f of {Nil -> f; Cons _ _ -> Nil; _ -> ",
            "}",
            "?0{_:",
            ",1.0:0,2.2:#1}",
        ),
    ] {
        let depth = 8_000;
        let text = format!("{}f f{}", before.repeat(depth), after.repeat(depth));
        let indices = format!("{}0 0{}", indices.repeat(depth), behind.repeat(depth));
        reads(names, &text, &indices, &["f"]);
    }
}

#[test]
fn an_index_has_a_limit() {
    let names = &mut Names::new();
    let text = format!("{}free", r"\x. ".repeat(32_767));
    reads(
        names,
        &text,
        &format!("{}32767", r"\".repeat(32_767)),
        &["free"],
    );
    let over = format!(r"\y. {}y", r"\x. ".repeat(32_768));
    let column = over.chars().count();
    let reason = "has index 32768 here, and the last one is 32767";
    assert_eq!(term_error(names, &over), format!("{column}: `y` {reason}"));
    let over = format!("{}free", r"\x. ".repeat(32_767));
    assert_eq!(
        term_error(names, &over),
        format!("{}: `free` {reason}", 32_767 * 4 + 1)
    );
    // A definition's free name counts where it stands in it.
    names.declare(r"let d = \_. free", 1).expect("a definition");
    let over = format!("{}d", r"\x. ".repeat(32_766));
    assert_eq!(
        term_error(names, &over),
        format!("{}: `d` {reason}", 32_766 * 4 + 1)
    );
    let text = format!("{}d", r"\x. ".repeat(32_766));
    reads(
        names,
        &text,
        &format!("{}32767", r"\".repeat(32_767)),
        &["free"],
    );
}

#[test]
fn a_name_whose_declaration_cannot_be_read_is_not_used() {
    let names = &mut Names::new();
    for (line, number) in [
        ("let add = (", 1),
        ("let mul \\x. x", 2),
        ("constructor Nil 1.0, Cons = 2.2", 3),
        ("let one = %1", 4),
        ("let one = %2", 5),
    ] {
        let read = names.declare(line, number);
        assert_eq!(read.is_ok(), number == 4, "{line}");
    }
    for (text, reason) in [
        (
            "x add",
            "3: the declaration of `add` on line 1 cannot be read",
        ),
        (
            "mul",
            "1: the declaration of `mul` on line 2 cannot be read",
        ),
        (
            "Nil",
            "1: the declaration of `Nil` on line 3 cannot be read",
        ),
        (
            "case x of {Cons y z -> y}",
            "12: the declaration of `Cons` on line 3 cannot be read",
        ),
        (
            "one",
            "1: the declaration of `one` on line 5 cannot be read",
        ),
    ] {
        assert_eq!(term_error(names, text), reason, "{text}");
    }
    for (line, name) in [
        ("constructor Leaf = 7.0, _Node = 8.2, Fork = 9.0", "Fork"),
        ("constructor Leaf = 7.0x, Fork = 9.0", "Fork"),
        ("constructor Tip\u{a0}= 7.0", "Tip"),
        ("constructor Tip, Twig", "Twig"),
        ("constructors Some 7.1", "Some"),
        ("data Maybe = Just", "Just"),
        ("let\u{a0}twice = \\x. x", "twice"),
        ("let (once) = \\x. x", "once"),
        ("let rec fix = \\x. fix", "fix"),
        ("Let thrice = %3", "thrice"),
        ("define fourth = %4", "fourth"),
        ("fifth f x = f x", "fifth"),
        ("sixth := %6", "sixth"),
        ("let\u{200d} seventh = %7", "seventh"),
    ] {
        assert!(names.declare(line, 8).is_err(), "{line}");
        names.revoke(line, 8);
        let reason = format!("1: the declaration of `{name}` on line 8 cannot be read");
        assert_eq!(term_error(names, name), reason, "{line}");
    }
    // What is declared is not taken away by a pair without its sign.
    assert_eq!(names.declare("let k = free", 9), Ok(()));
    assert!(!names.revoke("k a = b", 10));
    reads(names, "k", "0", &["free"]);
    // A definition cannot bring a name in that is taken away.
    names.revoke("let free = )", 11);
    assert_eq!(
        term_error(names, "x k"),
        "3: the declaration of `free` on line 11 cannot be read; `k` uses it"
    );
    // A binder with the name of a constructor is an error, whether that can be read or not.
    assert_eq!(
        term_error(names, r"\Fork. x"),
        "2: the declaration of `Fork` on line 8 cannot be read"
    );
    // A binder gives the name a meaning, and so does a declaration that can be read.
    reads(names, r"\add. add", r"\0", &[]);
    assert_eq!(names.declare("let add = \\x. x", 6), Ok(()));
    reads(names, "add", r"\0", &[]);
}

#[test]
fn a_name_is_not_as_it_must_be() {
    let names = &mut Names::new();
    for (text, reason) in [
        (
            "x\u{200d}",
            "1: a name does not end in a joiner, which is not seen",
        ),
        (
            "x\u{fe0f}",
            "2: expected a name, `(`, `\\`, `%`, `case` or the end, found `\\u{fe0f}`",
        ),
        (
            "\u{3164}",
            "1: expected a name, `(`, `\\`, `%` or `case`, found `\\u{3164}`",
        ),
        (
            "\u{345}x",
            "1: expected a name, `(`, `\\`, `%` or `case`, found `\\u{345}`",
        ),
        (
            r"\_x. y",
            "2: a name begins with a letter, and `_` stands alone",
        ),
        (
            r"\_ _1. y",
            "4: a name begins with a letter, and `_` stands alone",
        ),
    ] {
        assert_eq!(term_error(names, text), reason, "{text}");
    }
}

#[test]
fn a_name_is_not_used_above_its_declaration() {
    let names = &mut Names::new();
    names.begin("exam.key");
    names.announce("let add = %1", 3);
    names.announce("constructor Nil = 1.0, Cons = 2.2", 4);
    for (text, reason) in [
        ("add", "1: `add` is declared only on line 3, below its use"),
        (
            "x Nil",
            "3: `Nil` is declared only on line 4, below its use",
        ),
        (
            "case x of {Cons h t -> h}",
            "12: `Cons` is declared only on line 4, below its use",
        ),
    ] {
        assert_eq!(term_error(names, text), reason, "{text}");
    }
    assert_eq!(
        line_error(names, "let two = add add"),
        "11: `add` is declared only on line 3, below its use"
    );
    assert_eq!(names.declare("let add = %1", 3), Ok(()));
    reads(names, "add", "%1", &[]);
    // From another file on, the file is named.
    names.begin("other.key");
    assert_eq!(
        line_error(names, "let add = %2"),
        "5: `add` is already declared on line 3 of exam.key"
    );
}

#[test]
fn doubling_definitions_end_in_an_error() {
    let names = &mut Names::new();
    names.declare("let d0 = a", 1).expect("a definition");
    for nth in 1..=15 {
        let line = format!("let d{nth} = d{0} d{0}", nth - 1);
        names.declare(&line, nth + 1).expect(&line);
    }
    // 2^16 - 1 words.
    let term = names.term("d15", &mut Vec::new(), 20).expect("a term");
    assert_eq!(term.length(), 65_535);
    let over = "up to here the term has more than 65536 words";
    assert_eq!(
        line_error(names, "let d16 = d15 d15"),
        format!("15: {over}")
    );
    assert_eq!(term_error(names, "d15 a"), format!("5: {over}"));
    assert_eq!(term_error(names, "a d15"), format!("3: {over}"));
    // Definitions that have few words each may have too many together.
    let mut lines = 0..100;
    let error = lines.find_map(|nth| names.declare(&format!("let e{nth} = d15"), 30).err());
    let reason = "5: all definitions together have more than 1048576 words";
    assert_eq!(error.map(shown), Some(reason.to_string()));
}
