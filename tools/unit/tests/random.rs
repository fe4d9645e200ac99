//! Random terms, texts and bytes for both notations, from fixed seeds.

use unit::{Names, Printed, Term};

/// A small generator of numbers.
struct Random(u64);

impl Random {
    fn next(&mut self) -> u64 {
        self.0 ^= self.0 << 13;
        self.0 ^= self.0 >> 7;
        self.0 ^= self.0 << 17;
        self.0 >> 11
    }

    fn below(&mut self, limit: usize) -> usize {
        (self.next() % limit as u64) as usize
    }

    fn one<T: Copy>(&mut self, list: &[T]) -> T {
        list[self.below(list.len())]
    }
}

/// A term with names, as the grammar has it.
#[derive(Clone, Debug)]
enum Tree {
    Name(&'static str),
    Numeral(usize),
    Abstraction(Vec<&'static str>, Box<Tree>),
    Application(Vec<Tree>),
    Constructor(usize, Vec<Tree>),
    Case(Box<Tree>, Vec<Branch>),
    Definition(usize),
}

#[derive(Clone, Debug)]
struct Branch {
    /// `None` for the default.
    constructor: Option<usize>,
    binders: Vec<&'static str>,
    body: Tree,
}

/// Names of all scripts, and some that the printer gives itself. None is declared.
const NAMES: [&str; 14] = [
    "x",
    "y",
    "z",
    "u",
    "x1",
    "w'",
    "α",
    "дом",
    "قيمة",
    "ערך",
    "क्षेत्र",
    "变量",
    "ตัวแปร",
    "e\u{301}",
];

/// Name, tag and count.
const CONSTRUCTORS: [(&str, usize, usize); 5] = [
    ("Nil", 7, 0),
    ("Cons", 3, 2),
    ("v", 255, 1),
    ("三", 1, 3),
    ("لا", 9, 0),
];

/// Names of definitions; the first is that of no binder, the second that of some.
const DEFINITIONS: [&str; 4] = ["d", "y1", "定义", "w"];

/// Names that are bound: `_` for none, and a definition's.
const BINDERS: [&str; 6] = ["x", "y", "z", "_", "ערך", "y1"];

/// A random tree with so many levels at most.
fn tree(random: &mut Random, levels: usize, definitions: usize) -> Tree {
    let kind = match levels {
        0 => random.below(3),
        _ => random.below(12),
    };
    let below = levels.saturating_sub(1);
    match kind {
        0 | 1 => Tree::Name(random.one(&NAMES)),
        2 if definitions > 0 => Tree::Definition(random.below(definitions)),
        2 | 3 => Tree::Numeral(random.below(32)),
        4..=6 => {
            let binders = (0..=random.below(3))
                .map(|_| random.one(&BINDERS))
                .collect();
            Tree::Abstraction(binders, Box::new(tree(random, below, definitions)))
        }
        7 | 8 => {
            let items = 2 + random.below(3);
            Tree::Application(
                (0..items)
                    .map(|_| tree(random, below, definitions))
                    .collect(),
            )
        }
        9 | 10 => {
            let which = random.below(CONSTRUCTORS.len());
            let arguments = 0..CONSTRUCTORS[which].2;
            let arguments = arguments
                .map(|_| tree(random, below, definitions))
                .collect();
            Tree::Constructor(which, arguments)
        }
        _ => {
            let subject = Box::new(tree(random, below, definitions));
            let mut branches = Vec::new();
            for which in 0..=CONSTRUCTORS.len() {
                if random.below(3) > 0 {
                    continue;
                }
                let constructor = (which < CONSTRUCTORS.len()).then_some(which);
                let count = constructor.map_or(0, |which| CONSTRUCTORS[which].2);
                let mut binders: Vec<&str> = Vec::new();
                for _ in 0..count {
                    let binder = random.one(&BINDERS);
                    // A branch binds no name twice.
                    let is_bound = binders.contains(&binder);
                    binders.push(if is_bound { "_" } else { binder });
                }
                let body = tree(random, below, definitions);
                let at = random.below(branches.len() + 1);
                branches.insert(
                    at,
                    Branch {
                        constructor,
                        binders,
                        body,
                    },
                );
            }
            Tree::Case(subject, branches)
        }
    }
}

/// The tree in the notation with names, with more parentheses and blanks than it needs.
fn named(tree: &Tree, random: &mut Random) -> String {
    let text = match tree {
        Tree::Name(name) => name.to_string(),
        Tree::Definition(which) => DEFINITIONS[*which].to_string(),
        Tree::Numeral(value) => format!("%{value}"),
        Tree::Abstraction(binders, body) => {
            let sign = random.one(&["\\", "λ", "\\ "]);
            let dot = random.one(&[".", ". ", " .\t"]);
            format!("{sign}{}{dot}{}", binders.join(" "), named(body, random))
        }
        Tree::Application(items) => {
            let items: Vec<String> = items.iter().map(|item| self::item(item, random)).collect();
            items.join(random.one(&[" ", "\n"]))
        }
        Tree::Constructor(which, arguments) => {
            let mut text = CONSTRUCTORS[*which].0.to_string();
            for argument in arguments {
                text += " ";
                text += &item(argument, random);
            }
            text
        }
        Tree::Case(subject, branches) => {
            let branches: Vec<String> = branches.iter().map(|each| branch(each, random)).collect();
            let subject = named(subject, random);
            format!(
                "case {subject} of {{{}}}",
                branches.join(random.one(&[";", " ; "]))
            )
        }
    };
    match random.below(8) {
        0 => format!("({text})"),
        1 => format!(" {text} "),
        _ => text,
    }
}

fn item(tree: &Tree, random: &mut Random) -> String {
    let text = named(tree, random);
    match tree {
        Tree::Name(_) | Tree::Numeral(_) | Tree::Definition(_) | Tree::Case(..) => text,
        _ => format!("({text})"),
    }
}

fn branch(branch: &Branch, random: &mut Random) -> String {
    let head = branch
        .constructor
        .map_or("_", |which| CONSTRUCTORS[which].0);
    let arrow = random.one(&["->", "→", " -> "]);
    let pattern = [&[head], &branch.binders[..]].concat().join(" ");
    format!("{pattern}{arrow}{}", named(&branch.body, random))
}

/// The names of the binders around a place, and the free names, by their numbers.
struct Scope<'a> {
    bound: Vec<&'static str>,
    free: &'a mut Vec<&'static str>,
    definitions: &'a [Tree],
}

/// The tree in the notation of indices, every term but the whole in parentheses.
fn indices(tree: &Tree, scope: &mut Scope) -> String {
    match tree {
        Tree::Name(name) => {
            let position = scope.bound.iter().rev().position(|bound| bound == name);
            let index = position.unwrap_or_else(|| {
                let known = scope.free.iter().position(|free| free == name);
                let number = known.unwrap_or_else(|| {
                    scope.free.push(name);
                    scope.free.len() - 1
                });
                scope.bound.len() + number
            });
            index.to_string()
        }
        Tree::Definition(which) => {
            let name = DEFINITIONS[*which];
            if scope.bound.contains(&name) {
                return indices(&Tree::Name(name), scope);
            }
            // No binder around it binds a name in it; `*` is the name of none.
            let bound = vec!["*"; scope.bound.len()];
            let around = std::mem::replace(&mut scope.bound, bound);
            let text = indices(&scope.definitions[*which], scope);
            scope.bound = around;
            format!("({text})")
        }
        Tree::Numeral(value) => format!("%{value}"),
        Tree::Abstraction(binders, body) => {
            format!(
                "(\\{})",
                "\\".repeat(binders.len() - 1) + &below(binders, body, scope)
            )
        }
        Tree::Application(items) => {
            let items: Vec<String> = items.iter().map(|item| indices(item, scope)).collect();
            format!("({})", items.join(" "))
        }
        Tree::Constructor(which, arguments) => {
            let tag = CONSTRUCTORS[*which].1;
            let arguments: Vec<String> =
                arguments.iter().map(|each| indices(each, scope)).collect();
            match arguments.is_empty() {
                true => format!("#{tag}"),
                false => format!("#{tag}[{}]", arguments.join(",")),
            }
        }
        Tree::Case(subject, branches) => {
            let subject = indices(subject, scope);
            let mut sorted: Vec<(usize, String)> = Vec::new();
            for branch in branches {
                let body = below(&branch.binders, &branch.body, scope);
                let (tag, count) = match branch.constructor {
                    None => (0, 0),
                    Some(which) => (CONSTRUCTORS[which].1, CONSTRUCTORS[which].2),
                };
                sorted.push((tag, format!("{tag}.{count}:{body}")));
            }
            sorted.sort();
            let branches: Vec<String> = sorted.into_iter().map(|(_, text)| text).collect();
            format!("?{subject}{{{}}}", branches.join(","))
        }
    }
}

fn below(binders: &[&'static str], body: &Tree, scope: &mut Scope) -> String {
    let around = scope.bound.len();
    scope.bound.extend(binders);
    let text = indices(body, scope);
    scope.bound.truncate(around);
    text
}

/// Names with all constructors, and definitions of which each may use those before it.
fn declared(random: &mut Random) -> (Names, Vec<Tree>) {
    let mut names = Names::new();
    let constructors = CONSTRUCTORS.map(|(name, tag, count)| format!("{name} = {tag}.{count}"));
    let line = format!("constructor {}", constructors.join(" , "));
    names.declare(&line, 1).expect(&line);
    let mut definitions = Vec::new();
    for (which, name) in DEFINITIONS.iter().enumerate() {
        let tree = tree(random, 2, which);
        let line = format!("let {name} = {}", named(&tree, random));
        names
            .declare(&line, which + 2)
            .unwrap_or_else(|error| panic!("{line}: {error}"));
        definitions.push(tree);
    }
    (names, definitions)
}

/// Spans lie in the text, one for each word; the kinds of words show in them.
fn check_spans(printed: &Printed, term: &Term) {
    assert_eq!(printed.spans.len(), term.length());
    let kinds = term.words().expect("all is in range");
    for (span, word) in printed.spans.iter().zip(kinds) {
        let text = &printed.text[span.clone()];
        assert!(!text.is_empty() && text.trim() == text, "{text}");
        match word % 8 {
            0 => assert!(
                !text.contains([' ', '(', ')', '\\', '.', '{', ';', ',']),
                "{text}"
            ),
            2 => assert!(text.contains(' '), "{text}"),
            4 => assert!(text == "case" || text == "?", "{text}"),
            5 => assert!(text.ends_with("->") || text.ends_with(':'), "{text}"),
            6 => assert_eq!(text, format!("%{}", word / 8)),
            _ => assert!(!text.contains(' '), "{text}"),
        }
    }
}

/// The text of each variable is the name that its binder shows, or its free name.
fn check_variables(printed: &Printed, term: &Term, free: &[String]) {
    let words = term.words().expect("all is in range");
    // The names bound around each term and branch to come, the next one last.
    let mut to_come = vec![Vec::new()];
    for (&word, span) in words.iter().zip(&printed.spans) {
        let mut bound: Vec<&str> = to_come.pop().expect("a term is whole");
        let text = &printed.text[span.clone()];
        match word % 8 {
            0 => {
                let index = (word / 8) as usize;
                let name = match index.checked_sub(bound.len()) {
                    Some(number) => free[number].as_str(),
                    None => bound[bound.len() - 1 - index],
                };
                assert_eq!(text, name);
            }
            1 => bound.push(text.trim_start_matches('\\')),
            5 => {
                let parts: Vec<&str> = text.split(' ').collect();
                bound.extend(&parts[1..parts.len() - 1]);
            }
            _ => {}
        }
        let children = unit::word::children(word);
        to_come.extend(std::iter::repeat_n(bound, children));
    }
}

#[test]
fn random_terms_are_the_same_in_both_notations() {
    let random = &mut Random(0x9E37_79B9_7F4A_7C15);
    let (mut names, mut definitions) = declared(random);
    for case in 0..20_000 {
        if case % 100 == 0 {
            (names, definitions) = declared(random);
        }
        let tree = tree(random, 1 + case % 5, definitions.len());
        let text = named(&tree, random);
        let mut free = Vec::new();
        let term = names
            .term(&text, &mut free, 9)
            .unwrap_or_else(|error| panic!("{text}: {error}"));
        let mut numbered = Vec::new();
        let by_index = indices(
            &tree,
            &mut Scope {
                bound: Vec::new(),
                free: &mut numbered,
                definitions: &definitions,
            },
        );
        assert_eq!(Ok(&term), by_index.parse().as_ref(), "{text}");
        assert_eq!(free, numbered, "{text}");

        let printed = names.printed(&term, &free);
        let read = names.term(&printed.text, &mut free, 9);
        assert_eq!(read.as_ref(), Ok(&term), "{text}: {}", printed.text);
        assert_eq!(free, numbered, "{text}");
        check_spans(&printed, &term);
        check_variables(&printed, &term, &free);

        let printed = term.printed();
        assert_eq!(printed.text, term.to_string());
        assert_eq!(printed.text.parse(), Ok(term.clone()));
        check_spans(&printed, &term);
    }
}

/// Whatever the text is, there is a term or an error with a place in it; a term is printed and read
/// again. Says whether it was one, in both notations.
fn check_text(declared: &Names, text: &str) -> (bool, bool) {
    let mut names = declared.clone();
    let columns = 1..=text.chars().count() + 1;
    let mut free = Vec::new();
    let by_name = names.term(text, &mut free, 9);
    match &by_name {
        Ok(term) => {
            let printed = names.printed(term, &free);
            let read = names.term(&printed.text, &mut free, 9);
            assert_eq!(read.as_ref(), Ok(term), "{text:?}: {}", printed.text);
            check_variables(&printed, term, &free);
        }
        Err(error) => {
            assert!(columns.contains(&error.column), "{text:?}: {error}");
            assert!(free.is_empty());
        }
    }
    let by_index = text.parse::<Term>();
    match &by_index {
        Ok(term) => {
            let printed = term.printed();
            assert_eq!(printed.text.parse().as_ref(), Ok(term), "{text:?}");
            let named = names.printed(term, &[]);
            assert_eq!(named.spans.len(), term.length());
        }
        Err(error) => assert!(columns.contains(&error.column), "{text:?}: {error}"),
    }
    if let Err(error) = names.declare(text, 9) {
        assert!(columns.contains(&error.column), "{text:?}: {error}");
    }
    Names::is_declaration(text);
    (by_name.is_ok(), by_index.is_ok())
}

#[test]
fn random_tokens_are_a_term_or_an_error() {
    const TOKENS: &str = r"x y y1 d w Nil Cons v case of let constructor ( ) ( ) \ \x. λ . _ % %3 0 1 12
        { } -> → ; , = #2 [ ] ? 1.0: _: | -";
    const OTHERS: [&str; 7] = ["ערך", "क्षेत्र", " ", " ", "\t", "\u{301}", "\u{202e}"];
    let tokens: Vec<&str> = TOKENS.split_whitespace().chain(OTHERS).collect();
    let random = &mut Random(0x2545_F491_4F6C_DD1D);
    let (names, _) = declared(random);
    let mut terms = (0, 0);
    for case in 0..60_000 {
        let mut text = String::new();
        for _ in 0..=random.below(1 + case % 16) {
            text += random.one(&tokens);
            text += random.one(&["", " "]);
        }
        let (by_name, by_index) = check_text(&names, &text);
        terms.0 += usize::from(by_name);
        terms.1 += usize::from(by_index);
    }
    assert!(terms.0 > 1_000 && terms.1 > 1_000, "{terms:?}");
}

#[test]
fn random_bytes_are_a_term_or_an_error() {
    let random = &mut Random(0xD1B5_4A32_D192_ED03);
    let (names, _) = declared(random);
    for case in 0..60_000 {
        let length = random.below(1 + case % 24);
        let limit = random.one(&[128, 256]);
        let bytes: Vec<u8> = (0..length).map(|_| random.below(limit) as u8).collect();
        check_text(&names, &String::from_utf8_lossy(&bytes));
        let any = |_| char::from_u32(random.below(0x11_0000) as u32).unwrap_or('x');
        let text: String = (0..length).map(any).collect();
        check_text(&names, &text);
    }
}

/// Texts that are almost terms: those of random ones with a character taken away, doubled or
/// exchanged.
#[test]
fn damaged_texts_are_a_term_or_an_error() {
    let random = &mut Random(0xA076_1D64_78BD_642F);
    let (names, definitions) = declared(random);
    for case in 0..30_000 {
        let tree = tree(random, 1 + case % 4, definitions.len());
        let mut text: Vec<char> = named(&tree, random).chars().collect();
        let at = random.below(text.len());
        let other = text[random.below(text.len())];
        match random.below(3) {
            0 => {
                text.remove(at);
            }
            1 => text.insert(at, other),
            _ => text[at] = other,
        }
        check_text(&names, &text.into_iter().collect::<String>());
    }
}

#[test]
fn random_declarations_are_taken_or_leave_everything() {
    let random = &mut Random(0xE703_7ED1_A0B4_28DB);
    let mut taken = 0;
    for _ in 0..2_000 {
        let mut names = Names::new();
        for number in 1..8 {
            let name = random.one(&DECLARED);
            let line = match random.below(3) {
                0 => format!(
                    "constructor {name} = {}.{}",
                    random.below(5),
                    random.below(3)
                ),
                1 => format!(
                    "constructor {name} = {}.0, {} = {}.1",
                    1 + random.below(4),
                    random.one(&["a", "b", "C", "D"]),
                    1 + random.below(4)
                ),
                _ => format!(
                    "let {name} = {} {}",
                    random.one(&["a", "b", "C", "D"]),
                    random.one(&["%1", "a", "(D C)", ")"])
                ),
            };
            let before = meanings(&names);
            match names.declare(&line, number) {
                Ok(()) => taken += 1,
                Err(error) => {
                    assert!((1..=line.chars().count() + 1).contains(&error.column));
                    let after = meanings(&names);
                    for ((name, before), after) in DECLARED.iter().zip(before).zip(after) {
                        match line.contains(&format!("{name} = ")) {
                            true => assert!(after[1].contains("cannot be read"), "{line}"),
                            // By a definition in which such a name is free.
                            false if after[1].contains("uses it") => {
                                assert_eq!(before[0], after[0], "{line}")
                            }
                            false => assert_eq!(before, after, "{line}"),
                        }
                    }
                }
            }
        }
    }
    assert!(taken > 2_000, "{taken}");
}

const DECLARED: [&str; 5] = ["a", "b", "C", "D", "ערך"];

/// What the declaration of each name would meet, and what the name means.
fn meanings(names: &Names) -> [[String; 2]; 5] {
    DECLARED.map(|name| {
        let line = format!("let {name} = %0");
        let declared = names.clone().declare(&line, 0);
        let term = names.clone().term(name, &mut Vec::new(), 0);
        [format!("{declared:?}"), format!("{term:?}")]
    })
}
