//! What the generated inputs are made to be, as far as neither the comparing run nor
//! what they reach tells it.

mod common;

use common::loaded;
use reference::contraction::step;
use reference::generate::pairs::{named, pair};
use reference::generate::tables::{term_table, Order};
use reference::generate::terms::{replace, subterms, term, Style};
use reference::generate::{families, inputs, near, scripts};
use reference::on_large_stack;
use reference::random::Random;
use reference::refusal::Refusal;
use reference::replay::{self, Event};
use reference::table::write;
use reference::term::{abs, app, branch, case, con, var, Term, WORKSPACE};
use reference::term::{MOST_ARGUMENTS, MOST_BOUND, MOST_BRANCHES};
use reference::verdict::{outcome, Outcome};
use reference::words::{read, words};
use std::collections::HashSet;

/// Runs `check` with the random numbers of so many cases.
fn for_cases(count: u64, check: impl Fn(&mut Random) + Sync) {
    on_large_stack(|| (0..count).for_each(|case| check(&mut Random::new(7, case))));
}

#[test]
fn equal_seeds_give_equal_inputs() {
    on_large_stack(|| {
        for case in 0..32 {
            assert_eq!(inputs::input(5, case), inputs::input(5, case));
            assert_eq!(scripts::script(5, case), scripts::script(5, case));
        }
        let distinct: HashSet<_> = (0..32).map(|case| scripts::script(5, case)).collect();
        assert_eq!(distinct.len(), 32);
        assert_ne!(scripts::script(5, 0), scripts::script(6, 0));
    });
}

#[test]
fn every_length_has_an_input_and_a_script_that_press_in_it() {
    on_large_stack(|| {
        for capacity in WORKSPACE.step_by(127) {
            let input = inputs::in_length(5, capacity);
            assert!(matches!(outcome(&input), Outcome::Answered(_)));
            assert_eq!(input[4..8], (capacity as u32).to_le_bytes());
            let script = scripts::in_length(5, capacity);
            assert_eq!(script[..4], (capacity as u32).to_le_bytes());
            assert!(matches!(
                replay::run(&script).events[..],
                [
                    Event::Load(Ok(_)) | Event::Line(Ok(_)),
                    Event::Load(Ok(_)) | Event::Line(Ok(_)),
                    Event::Press(Ok(_)),
                    Event::Show(Some(_)),
                    Event::Write(Ok(_)),
                    Event::Export(Ok(_) | Err(Refusal::NoEncoding)),
                    Event::Line(Ok(_)),
                    Event::Import(Ok(_)),
                    Event::Print,
                ]
            ));
        }
    });
}

#[test]
fn terms_are_accepted_and_have_their_size() {
    for_cases(600, |random| {
        let size = random.between(8, 2_048);
        let (few, style) = (random.between(1, 300), Style::random(random));
        for (term, size) in [
            (term(random, few, 0, style), few),
            (families::deep(random, size), size),
        ] {
            assert_eq!(words(&term).len(), size);
            assert_eq!(read(&words(&term)), Some(term));
        }
        for (left, right) in [
            pair(random),
            families::pair(random),
            families::numerals(random),
            families::defaults(random),
            near::pair(random),
        ] {
            for term in [left, right] {
                assert!(term.size() <= 2_048);
                assert_eq!(read(&words(&term)), Some(term));
            }
        }
    });
}

#[test]
fn parts_are_found_and_replaced() {
    // \ 0 (\ 1): the parts are the whole, the application, 0, \ 1 and 1.
    let whole = abs(app(var(0), abs(var(1))));
    let parts = subterms(&whole);
    let binders: Vec<u32> = parts.iter().map(|part| part.1).collect();
    assert_eq!(binders, [0, 1, 1, 1, 2]);
    assert_eq!(parts[3].0, &abs(var(1)));
    let changed = abs(app(var(0), var(9)));
    assert_eq!(replace(&whole, 3, &var(9)), changed);
    assert_eq!(replace(&whole, 0, &var(9)), var(9));
}

#[test]
fn tables_in_every_order_mean_their_term() {
    for_cases(300, |random| {
        let (term, _) = pair(random);
        let mut list = words(&term);
        let length = list.len() as u32;
        list.resize(2_048, 0);
        let prefix = term_table(random, &term, Order::Prefix);
        for order in [Order::Prefix, Order::Oldest, Order::Any] {
            let table = term_table(random, &term, order);
            assert_eq!(loaded(&table, 2_048), (Ok(length), list.clone()));
            // Writing gives back exactly the tables in prefix order.
            let mut written = vec![7; table.len()];
            assert_eq!(write(&list, length, &mut written), Ok(length));
            assert_eq!(written, prefix);
        }
    });
    // \ 0 0 applied to 0. Record 1 is the application, 2 the abstraction. Behind it
    // come the inner application with its two variables, in this order, and the
    // argument at any of four places among them.
    let random = &mut Random::new(7, 0);
    let term = app(abs(app(var(0), var(0))), var(0));
    let prefix = term_table(random, &term, Order::Prefix);
    assert_ne!(term_table(random, &term, Order::Oldest), prefix);
    let any = (0..200).map(|_| term_table(random, &term, Order::Any));
    assert_eq!(any.collect::<HashSet<_>>().len(), 4);
}

/// Variables, abstractions and applications.
const PLAIN: Style = Style {
    redexes: 0,
    data: 0,
    free: 0,
    numerals: 0,
    defaults: 0,
    aim: None,
};

/// All that many changes make of a term, each of them accepted.
fn changes(whole: &Term, style: Style) -> Vec<Term> {
    let change = |case| near::changed(&mut Random::new(7, case), whole, style);
    let changes: Vec<Term> = (0..2_000).map(change).collect();
    let accepted = |term: &Term| read(&words(term)).as_ref() == Some(term);
    assert!(changes.iter().all(accepted), "{whole:?}");
    changes
}

#[test]
fn a_part_is_changed_in_every_word_up_to_its_limits() {
    let (arguments, bound) = (MOST_ARGUMENTS, MOST_BOUND as u32);
    let of = |tag, count| con(tag, vec![var(0); count]);
    let cases = |heads: &[(u32, u32)]| {
        let branches = heads.iter().map(|head| branch(head.0, head.1, var(0)));
        case(var(0), branches.collect())
    };
    let most: Vec<(u32, u32)> = (1..=MOST_BRANCHES as u32).map(|tag| (tag, 0)).collect();
    let others = [&[(4, 1)][..], &[(3, 2)], &[(3, 1), (4, 0)], &[]];
    for (whole, made) in [
        // In place of the same variable comes a constructor.
        (var(0), vec![var(1), con(1, Vec::new()), abs(var(0))]),
        (of(3, 0), vec![of(4, 0), of(3, 1)]),
        (of(3, 2), vec![of(4, 2), of(3, 1), of(3, 3)]),
        (
            of(255, arguments),
            vec![of(1, arguments), of(255, arguments - 1)],
        ),
        (cases(&[]), vec![cases(&[(1, 0)])]),
        (cases(&[(3, 1)]), others.map(cases).to_vec()),
        (cases(&[(255, bound)]), vec![cases(&[])]),
        (cases(&most), vec![cases(&most[..most.len() - 1])]),
    ] {
        let changes = changes(&whole, PLAIN);
        for term in made {
            assert!(changes.contains(&term), "{whole:?} {term:?}");
        }
    }
}

#[test]
fn a_change_puts_in_no_redex() {
    // Arguments of a constructor make no redex with what is around them.
    let whole = con(1, vec![var(0); MOST_ARGUMENTS]);
    for data in [0, 80] {
        let style = Style {
            redexes: 80,
            data,
            ..PLAIN
        };
        let changes = changes(&whole, style);
        assert!(changes.iter().all(|term| step(term).is_none()));
    }
}

#[test]
fn a_function_of_any_part_under_no_binder_contracts_to_the_term() {
    // f0 (\ f0): the last variable is under a binder.
    let whole = app(var(0), abs(var(1)));
    let mut parts = Vec::new();
    for case in 0..100 {
        let (function, part) = named(&mut Random::new(7, case), &whole);
        assert_eq!(step(&app(function, part.clone())).as_ref(), Some(&whole));
        parts.push(part);
    }
    for part in [&whole, &var(0), &abs(var(1))] {
        assert!(parts.contains(part), "{part:?}");
    }
}
