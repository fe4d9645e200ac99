//! What the generators reach: every shape of a term and every place of a redex,
//! every end of rounds, every clause of every refusal of a table, every rule that
//! words break, every call with every answer, every break of a script. What the
//! comparing run demands itself, and what is needed to tell a wrong reader, importer,
//! exporter or position, is not asked for here again.

#[path = "../common/mod.rs"]
mod common;
mod scripts;
mod tables;
mod terms;

use common::census::Census;
use reference::on_large_stack;

/// What so many cases of a generator have to meet: each of the features at least so
/// often, and none besides.
struct Reach {
    subject: &'static str,
    cases: u64,
    least: usize,
    look: fn(u64, &mut Census),
    features: &'static [&'static str],
}

#[test]
fn generators_reach_every_feature() {
    let tables = [terms::REACH, tables::REACH, scripts::REACH];
    std::thread::scope(|scope| {
        for reach in tables.into_iter().flatten() {
            scope.spawn(move || {
                let census = on_large_stack(|| {
                    let mut census = Census::default();
                    (0..reach.cases).for_each(|case| (reach.look)(case, &mut census));
                    census
                });
                census.assert_reaches(reach.subject, reach.least, reach.features);
            });
        }
    });
}
