//! The pairs that are measured, with the line that each must give, worked out by hand.

use crate::numbers::grouped;
use unit::limits::MAX_BUDGET;
use unit::program::input;
use unit::{table, Term};

/// The words of each workspace.
pub const C: u32 = 2_048;

pub struct Case {
    pub name: String,
    pub left: Term,
    pub right: Term,
    pub budget: u32,
    pub line: String,
}

impl Case {
    fn new(name: String, left: &str, right: &str, line: String) -> Case {
        let term = |text: &str| text.parse().expect("the case is written in the notation");
        Case {
            name,
            left: term(left),
            right: term(right),
            budget: MAX_BUDGET,
            line,
        }
    }

    /// What the measuring of the stack reads: 0, budget, C, the words of both sides, the left table.
    pub fn words(&self, budget: u32) -> Vec<u8> {
        let side = |term: &Term| term.words().expect("the case is within the limits");
        let mut words = vec![0, budget, C];
        for list in [side(&self.left), side(&self.right), table(&self.left)] {
            words.push(list.len() as u32);
            words.extend(list);
        }
        words.into_iter().flat_map(u32::to_le_bytes).collect()
    }

    /// Standard input with another budget.
    pub fn input(&self, budget: u32) -> Vec<u8> {
        input(budget, C, &self.left, &self.right)
    }

    /// Standard input that is loaded in full while the press is refused by its budget.
    pub fn refused(&self) -> Vec<u8> {
        self.input(MAX_BUDGET + 1)
    }
}

/// Pairs with contractions, each family growing.
pub fn contracting() -> Vec<Case> {
    let mut cases = vec![looping(), looping_by_last(), looping_by_default()];
    cases.extend([10, 13, 16].map(fold));
    cases.extend([5, 7, 9].map(power));
    cases.push(power_of_numerals(8));
    cases.extend([30, 100, 300].map(addition));
    cases.extend([10, 20, 40].map(multiplication));
    cases
}

/// Pairs with contractions that touch a small part of long terms.
pub fn untouched() -> Vec<Case> {
    vec![
        looping_beside_normal(),
        looping_under(1_000),
        looping_before(2_001),
        looping_in_stuck_cases(63),
        addition_before(30, 1_501),
    ]
}

/// A case at a place on the x axis of a plot.
pub struct Point {
    pub x: usize,
    pub case: Case,
}

/// Loops that touch more and more words in each contraction.
pub fn growing_touched() -> Vec<Point> {
    let padded = |padding| Point {
        x: 28 + 5 * padding,
        case: looping_padded(padding),
    };
    [1, 3, 10, 30, 100, 300, 677].map(padded).into()
}

/// Loops that touch 18 words in each contraction, of longer and longer terms.
pub fn growing_untouched() -> Vec<Point> {
    let under = |depth| Point {
        x: depth,
        case: Case {
            budget: PLOTTED,
            line: format!("Budget {PLOTTED} {} 1", depth + 9),
            ..looping_under(depth)
        },
    };
    [1, 3, 10, 30, 100, 300, 1_000, 2_030].map(under).into()
}

/// Pairs of normal terms, alike up to the last word unless equal.
pub fn normal() -> Vec<Case> {
    let mut cases = vec![equal_abstractions(2_047)];
    cases.extend([127, 511, 2_047].map(abstractions));
    cases.push(applications(1_023));
    cases.push(constructors(2_047));
    cases.push(stuck_cases(511));
    cases.push(stuck_cases_in_branches(682));
    cases
}

/// The Church numeral n.
fn church(n: usize) -> String {
    format!(r"(\\{}0{})", "1 (".repeat(n), ")".repeat(n))
}

/// The Peano numeral n: constructor 1 is zero, constructor 2 the successor.
fn peano(n: usize) -> String {
    format!("{}#1{}", "#2[".repeat(n), "]".repeat(n))
}

/// Addition by recursion on its second argument; the first is to be addition itself.
const ADD: &str = r"(\\\?1{1.0:0,2.1:#2[3 3 0 1]})";

/// The term that contracts to itself, in 9 words.
const LOOP: &str = r"(\0 0) \0 0";

fn looping() -> Case {
    let line = format!("Budget {MAX_BUDGET} 9 1");
    Case::new("Loop".to_string(), LOOP, "0", line)
}

/// A term that runs on, followed for some contractions, against the variable 0.
fn endless(name: String, left: &str, length: usize, budget: u32) -> Case {
    let line = format!("Budget {budget} {length} 1");
    Case {
        budget,
        ..Case::new(name, left, "0", line)
    }
}

/// f f where f is an abstraction of a case of the constructor with the tag, one of whose 15 branches
/// applies the argument to itself. Beta leads from 71 words to 102, and the case back.
fn looping_by(name: &str, tag: usize, branches: &str) -> Case {
    let f = format!(r"(\?#{tag}{{{branches}}})");
    endless(name.to_string(), &format!("{f} {f}"), 71, FOLLOWED)
}

/// Branches of the tags 1 to 14, with a constructor as body.
fn fourteen_branches() -> String {
    let branches: Vec<String> = (1..=14).map(|tag| format!("{tag}.0:#1")).collect();
    branches.join(",")
}

fn looping_by_last() -> Case {
    let branches = format!("{},15.0:0 0", fourteen_branches());
    looping_by("Loop by the last of 15 branches", 15, &branches)
}

fn looping_by_default() -> Case {
    let branches = format!("_:0 0,{}", fourteen_branches());
    looping_by("Loop by the default of 15 branches", 15, &branches)
}

/// Contractions followed where a program searches or moves long terms.
const FOLLOWED: u32 = 10_000;
/// Contractions followed for a point of a plot.
const PLOTTED: u32 = 400;

/// Loop, and a normal side that has 1,023 applications to the left.
fn looping_beside_normal() -> Case {
    let name = "Loop beside 2,047 normal words".to_string();
    let right = format!("0{}", " 0".repeat(1_023));
    let line = format!("Budget {FOLLOWED} 9 2047");
    Case {
        budget: FOLLOWED,
        ..Case::new(name, LOOP, &right, line)
    }
}

fn looping_under(depth: usize) -> Case {
    let left = format!("{}{LOOP}", r"\".repeat(depth));
    let name = format!("Loop under {} abstractions", grouped(depth));
    endless(name, &left, depth + 9, FOLLOWED)
}

/// Loop applied to an argument of so many words, an odd number.
fn looping_before(words: usize) -> Case {
    let left = format!("({LOOP}) ({})", tail(words));
    let name = format!("Loop before {} words", grouped(words));
    endless(name, &left, words + 10, FOLLOWED)
}

/// Loop in the subject of stuck cases, each the argument of the next one's constructor.
fn looping_in_stuck_cases(n: usize) -> Case {
    let left = format!("{}{LOOP}{}", "?#1[".repeat(n), "]{1.0:0}".repeat(n));
    let name = format!("Loop in {n} stuck cases");
    endless(name, &left, 4 * n + 9, FOLLOWED)
}

/// n + n, and behind it as many words as given, an odd number.
fn addition_before(n: usize, words: usize) -> Case {
    let tail = tail(words);
    let left = format!("#3[{ADD} {ADD} {0} {0},{tail}]", peano(n));
    let right = format!("#3[{},{tail}]", peano(2 * n));
    let length = 2 * n + 2 + words;
    let line = format!("Same {} {length} {length}", 4 * (n + 1));
    let name = format!("Peano {n} + {n} before {} words", grouped(words));
    Case::new(name, &left, &right, line)
}

/// A normal term of so many words, an odd number.
fn tail(words: usize) -> String {
    format!("0{}", " 0".repeat(words / 2))
}

/// f f where f is the abstraction of (\ f' f') p over its own f', and p has as many words as given.
/// One contraction of 13 + 2p words leads to (\ f f) p, 15 + 3p words, and the next one back.
fn looping_padded(padding: usize) -> Case {
    let p = format!("{}#1{}", "#1[".repeat(padding - 1), "]".repeat(padding - 1));
    let f = format!(r"\(\1 1) {p}");
    let name = format!("Loop with {padding} words to spare");
    endless(name, &format!("({f}) {f}"), 13 + 2 * padding, PLOTTED)
}

/// n 2 f x. Write T(k) for 2 (... (2 f)), k times 2: T(k) x takes two contractions to
/// T(k-1) (T(k-1) x), and T(0) x one where f is the identity, so T(k) x takes 3 × 2^k - 2.
/// Two more lead from n 2 f x to T(n) x.
fn fold(n: usize) -> Case {
    let left = format!(r"{} {} (\0) 0", church(n), church(2));
    let name = format!("Church 2^{n} of the identity");
    Case::new(name, &left, "0", format!("Same {} 1 1", 3 << n))
}

/// n 2 against the numeral of 2^n. Here f is a variable, so T(k) x takes 2^(k+1) - 2. One
/// contraction leads to an abstraction over T(n), one more to one over T(n-1) (T(n-1) x).
fn power(n: usize) -> Case {
    let left = format!("{} {}", church(n), church(2));
    let length = (2 << n) + 3;
    let line = format!("Same {} {length} {length}", (2 << n) - 2);
    Case::new(format!("Church 2^{n}"), &left, &church(1 << n), line)
}

/// The same of numerals: T(k) x takes one contraction more to T(k-1) (T(k-1) x), that of its 2, so
/// 3 × 2^k - 3. Two lead to an abstraction over T(n), two more to one over T(n-1) (T(n-1) x).
fn power_of_numerals(n: usize) -> Case {
    let left = format!("%{n} %2");
    let length = (2 << n) + 3;
    let line = format!("Same {} {length} {length}", (3 << n) - 2);
    let name = format!("Numerals 2^{n}");
    Case::new(name, &left, &church(1 << n), line)
}

/// n + n: three beta contractions and one by case for each number from n down to 0.
fn addition(n: usize) -> Case {
    let left = format!("{ADD} {ADD} {0} {0}", peano(n));
    let length = 2 * n + 1;
    let line = format!("Same {} {length} {length}", 4 * (n + 1));
    Case::new(format!("Peano {n} + {n}"), &left, &peano(2 * n), line)
}

/// n × n: four contractions for each number from n down to 0, and n additions to n.
fn multiplication(n: usize) -> Case {
    let multiply = format!(r"(\\\?1{{1.0:#1,2.1:{ADD} {ADD} 1 (3 3 0 1)}})");
    let left = format!("{multiply} {multiply} {0} {0}", peano(n));
    let length = n * n + 1;
    let spent = 4 * (n + 1) * (n + 1);
    let line = format!("Same {spent} {length} {length}");
    Case::new(format!("Peano {n} × {n}"), &left, &peano(n * n), line)
}

/// Normal terms of so many words that differ in the last one only.
fn different(name: String, left: &str, right: &str, length: usize) -> Case {
    let line = format!("Different 0 {length} {length} {}", length - 1);
    Case::new(name, left, right, line)
}

fn equal_abstractions(n: usize) -> Case {
    let term = format!(r"{}0", r"\".repeat(n));
    let name = format!("{n} abstractions, equal");
    let line = format!("Same 0 {0} {0}", n + 1);
    Case::new(name, &term, &term, line)
}

fn abstractions(n: usize) -> Case {
    let side = |last| format!("{}{last}", r"\".repeat(n));
    let name = format!("{n} abstractions");
    different(name, &side(0), &side(1), n + 1)
}

fn applications(n: usize) -> Case {
    let side = |last| format!("0{} {last}", " 0".repeat(n - 1));
    let name = format!("{n} applications to the left");
    different(name, &side(0), &side(1), 2 * n + 1)
}

fn constructors(n: usize) -> Case {
    let side = |last| format!("{}{last}{}", "#1[".repeat(n), "]".repeat(n));
    let name = format!("{n} constructors");
    different(name, &side(0), &side(1), n + 1)
}

/// Cases on constructors of another count, each the argument of the next: the search goes over
/// every subject to look at the branches behind it.
fn stuck_cases(n: usize) -> Case {
    let inner = format!("{}0{}", "?#1[".repeat(n - 1), "]{1.0:0}".repeat(n - 1));
    let side = |last| format!("?#1[{inner}]{{1.0:{last}}}");
    let name = format!("{n} stuck cases");
    different(name, &side(0), &side(1), 4 * n + 1)
}

/// Stuck cases, each in the only branch of the next one, which is of another tag.
fn stuck_cases_in_branches(n: usize) -> Case {
    let side = |last| format!("{}{last}{}", "?#1{2.0:".repeat(n), "}".repeat(n));
    let name = format!("{n} stuck cases in branches");
    different(name, &side(0), &side(1), 3 * n + 1)
}

#[cfg(test)]
mod tests {
    use super::*;
    use crate::peers::{flat, graph};

    #[test]
    fn the_peers_give_the_lines_worked_out() {
        let points = growing_touched().into_iter().chain(growing_untouched());
        let cases = [contracting(), untouched(), normal()].into_iter().flatten();
        for case in cases.chain(points.map(|point| point.case)) {
            for line in [flat::line, graph::line] {
                assert_eq!(line(&case.input(case.budget)), case.line, "{}", case.name);
                assert_eq!(line(&case.refused()), "Refused 9", "{}", case.name);
            }
        }
    }

    #[test]
    fn a_point_stands_at_the_words_that_it_names() {
        for Point { x, case } in growing_touched() {
            // The redex is the whole term, and so is what replaces it.
            let next = x - case.left.length();
            assert_eq!(flat::line(&case.input(1)), format!("Budget 1 {next} 1"));
        }
        for Point { x, case } in growing_untouched() {
            assert_eq!(case.left.length(), x + 9);
        }
    }

    #[test]
    fn the_stack_is_measured_on_both_sides_and_the_left_table() {
        let case = Case::new(
            "pair".to_string(),
            r"\0",
            "7",
            "Different 0 2 1 0".to_string(),
        );
        let (left, right, table) = ([1, 0], [56], [1, 2, 1, 0, 1, 0, 2, 0, 0, 0, 0, 0]);
        let words = [&[0, 5, C, 2][..], &left, &[1], &right, &[12], &table].concat();
        let bytes: Vec<u8> = words.into_iter().flat_map(u32::to_le_bytes).collect();
        assert_eq!(case.words(5), bytes);
    }
}
