//! A peer that keeps a term as a tree of shared nodes. A node knows its size, the indices free in it
//! and whether it is normal, so a search goes past normal parts, a substitution shares what it does
//! not change, and lengths need no walk. Contracting makes nodes anew along the way to the redex
//! only where they are shared.

use std::cell::Cell;
use std::rc::Rc;

use unit::limits::{MAX_BUDGET, WORKSPACE};
use unit::word::*;

use super::table::load;
use super::{Answer, Request, Verdict};

type Term = Rc<Node>;

#[derive(Clone)]
struct Node {
    head: Head,
    /// The number of its words.
    size: usize,
    /// Every index free in it is below this.
    free: u32,
    /// It was searched in vain for a redex.
    is_normal: Cell<bool>,
}

#[derive(Clone)]
enum Head {
    Variable(u32),
    Abstraction(Term),
    Application(Term, Term),
    Constructor(u32, Vec<Term>),
    Case(Term, Vec<Branch>),
    Numeral(u32),
}

#[derive(Clone)]
struct Branch {
    tag: u32,
    bound: u32,
    body: Term,
}

/// The line for the bytes of standard input.
pub fn line(bytes: &[u8]) -> String {
    super::line(bytes, answer)
}

fn answer(request: &Request) -> Result<Answer, u32> {
    let c = request.c as usize;
    if !WORKSPACE.contains(&c) {
        return Err(7);
    }
    let read = |table: &[u32]| -> Result<Term, u32> {
        let mut words = vec![0; c];
        let length = load(table, &mut words)?;
        Ok(term(&mut words[..length].iter()))
    };
    // In one array, as in the rounds: a run and a refused one, whose difference is measured, then free
    // the terms in one order.
    let sides = [read(&request.left)?, read(&request.right)?];
    if request.budget > MAX_BUDGET {
        return Err(9);
    }
    Ok(rounds(sides, c, request.budget))
}

/// The term of the next words.
fn term<'a>(words: &mut impl Iterator<Item = &'a u32>) -> Term {
    let word = *words.next().expect("the words are a whole term");
    let payload = payload(word);
    new(match kind(word) {
        VARIABLE => Head::Variable(payload),
        ABSTRACTION => Head::Abstraction(term(words)),
        APPLICATION => {
            let function = term(words);
            Head::Application(function, term(words))
        }
        CONSTRUCTOR => {
            let arguments = (0..count(payload)).map(|_| term(words)).collect();
            Head::Constructor(tag(payload), arguments)
        }
        NUMERAL => Head::Numeral(payload),
        _ => {
            let subject = term(words);
            Head::Case(subject, (0..payload).map(|_| branch(words)).collect())
        }
    })
}

fn branch<'a>(words: &mut impl Iterator<Item = &'a u32>) -> Branch {
    let word = *words.next().expect("the words are a whole term");
    Branch {
        tag: tag(payload(word)),
        bound: count(payload(word)),
        body: term(words),
    }
}

fn new(head: Head) -> Term {
    let mut node = Node {
        head,
        size: 0,
        free: 0,
        is_normal: Cell::new(false),
    };
    node.measure();
    Rc::new(node)
}

impl Node {
    /// Finds size and free indices from those of the parts.
    fn measure(&mut self) {
        let (mut size, mut free) = (1, 0);
        let mut part = |part: &Term, bound: u32| {
            size += part.size;
            free = free.max(part.free.saturating_sub(bound));
        };
        match &self.head {
            Head::Variable(index) => free = index + 1,
            Head::Numeral(_) => {}
            Head::Abstraction(body) => part(body, 1),
            Head::Application(function, argument) => {
                part(function, 0);
                part(argument, 0);
            }
            Head::Constructor(_, arguments) => arguments.iter().for_each(|a| part(a, 0)),
            Head::Case(subject, branches) => {
                part(subject, 0);
                branches.iter().for_each(|b| part(&b.body, b.bound));
                size += branches.len();
            }
        }
        self.size = size;
        self.free = free;
    }

    /// The parts that are terms, in the order of their words.
    fn parts(&self) -> usize {
        match &self.head {
            Head::Variable(_) | Head::Numeral(_) => 0,
            Head::Abstraction(_) => 1,
            Head::Application(..) => 2,
            Head::Constructor(_, arguments) => arguments.len(),
            Head::Case(_, branches) => branches.len() + 1,
        }
    }

    fn part(&self, nth: usize) -> &Term {
        match &self.head {
            Head::Abstraction(body) => body,
            Head::Application(function, _) if nth == 0 => function,
            Head::Application(_, argument) => argument,
            Head::Constructor(_, arguments) => &arguments[nth],
            Head::Case(subject, _) if nth == 0 => subject,
            Head::Case(_, branches) => &branches[nth - 1].body,
            Head::Variable(_) | Head::Numeral(_) => unreachable!("it has no parts"),
        }
    }

    fn part_mut(&mut self, nth: usize) -> &mut Term {
        match &mut self.head {
            Head::Abstraction(body) => body,
            Head::Application(function, _) if nth == 0 => function,
            Head::Application(_, argument) => argument,
            Head::Constructor(_, arguments) => &mut arguments[nth],
            Head::Case(subject, _) if nth == 0 => subject,
            Head::Case(_, branches) => &mut branches[nth - 1].body,
            Head::Variable(_) | Head::Numeral(_) => unreachable!("it has no parts"),
        }
    }

    fn redex(&self) -> Option<Redex<'_>> {
        match &self.head {
            Head::Application(function, argument) => match &function.head {
                Head::Abstraction(body) => {
                    Some(Redex::Substitution(body, std::slice::from_ref(argument)))
                }
                _ => None,
            },
            Head::Case(subject, branches) => match &subject.head {
                Head::Constructor(tag, arguments) => taken(branches, *tag, arguments),
                _ => None,
            },
            Head::Numeral(value) => Some(Redex::Numeral(*value)),
            _ => None,
        }
    }
}

/// The branch of a constructor's tag, if its count fits; the default if no branch has the tag.
fn taken<'a>(branches: &'a [Branch], tag: u32, arguments: &'a [Term]) -> Option<Redex<'a>> {
    match branches.iter().find(|branch| branch.tag == tag) {
        Some(branch) => {
            let fits = branch.bound as usize == arguments.len();
            fits.then_some(Redex::Substitution(&branch.body, arguments))
        }
        None => {
            let default = branches.first().filter(|branch| branch.tag == 0)?;
            Some(Redex::Substitution(&default.body, &[]))
        }
    }
}

/// A redex by its rule.
enum Redex<'a> {
    /// A body and the arguments to be put in.
    Substitution(&'a Term, &'a [Term]),
    Numeral(u32),
}

/// The Church numeral.
fn church(value: u32) -> Term {
    let function = new(Head::Variable(1));
    let applied = |argument, _| new(Head::Application(function.clone(), argument));
    let body = (0..value).fold(new(Head::Variable(0)), applied);
    new(Head::Abstraction(new(Head::Abstraction(body))))
}

/// The way to the leftmost outermost redex: which part to go into, from the root on.
type Way = Vec<usize>;

/// Finds the way; a part without a redex is marked normal and not entered again.
fn find(term: &Node, way: &mut Way) -> bool {
    if term.is_normal.get() {
        return false;
    }
    if term.redex().is_some() {
        return true;
    }
    for nth in 0..term.parts() {
        way.push(nth);
        if find(term.part(nth), way) {
            return true;
        }
        way.pop();
    }
    term.is_normal.set(true);
    false
}

/// What the redex at the end of the way becomes, and the whole term's next size.
fn contractum(term: &Term, way: &Way) -> (Term, usize) {
    let redex = way.iter().fold(term, |term, nth| term.part(*nth));
    let new = match redex.redex().expect("the way leads to a redex") {
        Redex::Substitution(body, arguments) => substitute(body, 0, arguments),
        Redex::Numeral(value) => church(value),
    };
    let size = term.size - redex.size + new.size;
    (new, size)
}

/// Puts a term at the end of the way.
fn put(term: &mut Term, way: &[usize], new: Term) {
    match way.split_first() {
        None => *term = new,
        Some((nth, way)) => {
            let node = Rc::make_mut(term);
            put(node.part_mut(*nth), way, new);
            node.measure();
        }
    }
}

/// Rebuilds a term with `at` deciding each variable that may be free below `depth` binders.
fn map(term: &Term, depth: u32, at: &impl Fn(u32, u32) -> Term) -> Term {
    if term.free <= depth {
        return term.clone();
    }
    new(match &term.head {
        Head::Variable(index) => return at(depth, *index),
        Head::Abstraction(body) => Head::Abstraction(map(body, depth + 1, at)),
        Head::Application(function, argument) => {
            Head::Application(map(function, depth, at), map(argument, depth, at))
        }
        Head::Constructor(tag, arguments) => {
            let arguments = arguments.iter().map(|part| map(part, depth, at));
            Head::Constructor(*tag, arguments.collect())
        }
        Head::Case(subject, branches) => {
            let branches = branches.iter().map(|branch| Branch {
                body: map(&branch.body, depth + branch.bound, at),
                ..*branch
            });
            Head::Case(map(subject, depth, at), branches.collect())
        }
        Head::Numeral(value) => Head::Numeral(*value),
    })
}

/// The body with the arguments put in: the last is index 0.
fn substitute(body: &Term, depth: u32, arguments: &[Term]) -> Term {
    map(body, depth, &|depth, index| {
        let number = (index - depth) as usize;
        match arguments.iter().rev().nth(number) {
            Some(argument) => raise(argument, depth),
            None => new(Head::Variable(index - arguments.len() as u32)),
        }
    })
}

/// The term with its free indices raised.
fn raise(term: &Term, by: u32) -> Term {
    match by {
        0 => term.clone(),
        _ => map(term, 0, &|_, index| new(Head::Variable(index + by))),
    }
}

/// The first position at which the words of two terms differ; those of both begin at `start`.
fn difference(one: &Term, other: &Term, start: usize) -> Option<usize> {
    if Rc::ptr_eq(one, other) {
        return None;
    }
    let next = start + 1;
    match (&one.head, &other.head) {
        (Head::Variable(one), Head::Variable(other)) if one == other => None,
        (Head::Numeral(one), Head::Numeral(other)) if one == other => None,
        (Head::Abstraction(one), Head::Abstraction(other)) => difference(one, other, next),
        (Head::Application(one, argument), Head::Application(other, other_argument)) => {
            difference(one, other, next)
                .or_else(|| difference(argument, other_argument, next + one.size))
        }
        (Head::Constructor(tag, one), Head::Constructor(other_tag, other))
            if (tag, one.len()) == (other_tag, other.len()) =>
        {
            difference_of_arguments(one, other, next)
        }
        (Head::Case(subject, one), Head::Case(other_subject, other))
            if one.len() == other.len() =>
        {
            difference(subject, other_subject, next)
                .or_else(|| difference_of_branches(one, other, next + subject.size))
        }
        _ => Some(start),
    }
}

/// The same of two lists of as many terms.
fn difference_of_arguments(one: &[Term], other: &[Term], mut start: usize) -> Option<usize> {
    one.iter().zip(other).find_map(|(one, other)| {
        let position = difference(one, other, start);
        start += one.size;
        position
    })
}

/// The same of two lists of as many branches, each a word and a body.
fn difference_of_branches(one: &[Branch], other: &[Branch], mut start: usize) -> Option<usize> {
    one.iter().zip(other).find_map(|(one, other)| {
        if (one.tag, one.bound) != (other.tag, other.bound) {
            return Some(start);
        }
        let body = start + 1;
        start = body + one.body.size;
        difference(&one.body, &other.body, body)
    })
}

fn rounds(mut sides: [Term; 2], c: usize, budget: u32) -> Answer {
    let mut spent = 0;
    let mut ways = [Way::new(), Way::new()];
    let verdict = loop {
        // Terms of unequal sizes are unequal: where they differ is asked only once both are normal.
        let compare = || difference(&sides[0], &sides[1], 0);
        let is_same_size = sides[0].size == sides[1].size;
        let position = is_same_size.then(compare).flatten();
        if is_same_size && position.is_none() {
            break Verdict::Same;
        }
        let mut moves = [false; 2];
        for ((side, way), moves) in sides.iter().zip(&mut ways).zip(&mut moves) {
            way.clear();
            *moves = find(side, way);
        }
        let moving = moves.iter().filter(|moves| **moves).count() as u32;
        if moving == 0 {
            let position = position.or_else(compare);
            let position = position.expect("unequal terms have a first difference");
            break Verdict::Different { position };
        }
        if spent + moving > budget {
            break Verdict::Budget;
        }
        let next = [0, 1].map(|side| moves[side].then(|| contractum(&sides[side], &ways[side])));
        if next.iter().flatten().any(|(_, size)| *size > c) {
            break Verdict::Full;
        }
        for ((side, way), next) in sides.iter_mut().zip(&ways).zip(next) {
            if let Some((new, _)) = next {
                put(side, way, new);
            }
        }
        spent += moving;
    };
    Answer {
        verdict,
        spent,
        left: sides[0].size,
        right: sides[1].size,
    }
}

#[cfg(test)]
mod tests {
    use super::*;

    fn variable(index: u32) -> Term {
        new(Head::Variable(index))
    }

    #[test]
    fn shared_parts_are_passed_over_by_their_size() {
        // Of 2^61 - 1 words, too many to walk over.
        let double = |part: Term, _| new(Head::Application(part.clone(), part));
        let shared = (0..60).fold(variable(0), double);
        assert_eq!(shared.size, (1 << 61) - 1);
        let after = |index| new(Head::Application(shared.clone(), variable(index)));
        assert_eq!(difference(&after(0), &after(0), 0), None);
        assert_eq!(difference(&after(0), &after(1), 0), Some(1 << 61));
        let between = |index| {
            let parts = [&shared, &variable(index), &shared, &variable(7 + index)];
            new(Head::Constructor(1, parts.map(Rc::clone).into()))
        };
        assert_eq!(difference(&between(0), &between(0), 0), None);
        assert_eq!(difference(&between(0), &between(1), 0), Some(1 << 61));
        let branches = |subject, last| {
            let branch = |tag, body| Branch {
                tag,
                bound: 0,
                body,
            };
            let branches = vec![branch(1, shared.clone()), branch(2, variable(last))];
            new(Head::Case(subject, branches))
        };
        // The case, its subject, the word of a branch, its body, the word of the next.
        let (one, other) = (branches(variable(0), 0), branches(variable(0), 1));
        assert_eq!(difference(&one, &other, 0), Some((1 << 61) + 3));
        let (one, other) = (branches(shared.clone(), 0), branches(shared.clone(), 1));
        assert_eq!(difference(&one, &other, 0), Some((1 << 62) + 1));
    }
}
