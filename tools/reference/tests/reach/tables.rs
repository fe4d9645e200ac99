//! Tables with a fault: every clause of every refusal, and inputs with faults on
//! either side. Each wrong table is looked at again, and what is wrong with it counted.

use crate::common::census::Census;
use crate::common::loaded;
use crate::Reach;
use reference::generate::damage::faulty_table;
use reference::generate::inputs;
use reference::random::Random;
use reference::refusal::Refusal;
use reference::term::{MOST_ARGUMENTS, MOST_BOUND, MOST_BRANCHES};
use reference::verdict::{outcome, Outcome, Request};
use reference::words::kind::{
    ABSTRACTION, APPLICATION, BRANCH, CASE, CONSTRUCTOR, NUMERAL, VARIABLE,
};
use std::cmp::Ordering;

pub const REACH: &[Reach] = &[
    Reach {
        subject: "refusal 1",
        cases: 800,
        least: 4,
        look: lengths,
        features: &[
            "{0|1|2|3} words",
            "{count 0|the header alone|no whole records|many records too few}",
            "one record too {few|many}",
            "one word too many",
            "{count 2,049|far count|count that fits in 32 bits|count that fits in 32 bits, twice over}",
        ],
    },
    Reach {
        subject: "refusal 2",
        cases: 400,
        least: 5,
        look: headers,
        features: &[
            "{form 0|form 2|form 3|far even form|far odd form}",
            "{root 0|root after the last|far root}",
            "{last word 1|another last word}",
        ],
    },
    Reach {
        subject: "refusal 8",
        cases: 400,
        least: 12,
        look: long_tables,
        features: &["{one word|a few words|many words|one word above 16|2,048 words}"],
    },
    Reach {
        subject: "refusal 3",
        cases: 2_400,
        least: 5,
        look: values,
        features: &[
            "{kind 7|far kind|far kind that ends in a numeral's}",
            "{index|tag|branch's tag|numeral} {just|far} above",
            "tag 0",
            "branch's tag 0 of {one|several|most} bound",
            "{abstraction|application|case}'s value",
            "in the {first|last} record",
        ],
    },
    Reach {
        subject: "refusal 4",
        cases: 800,
        least: 2,
        look: links,
        features: &[
            "{child|next} {to itself|back|past the last|far off}",
            "only a record {that none names|named twice}",
            "{one named twice, one not|a circle, all named once|another root}",
        ],
    },
    Reach {
        subject: "refusal 5",
        cases: 3_000,
        least: 2,
        look: structures,
        features: &[
            "root {a branch|with a next|with a next that is a branch}",
            "{variable|abstraction|application|constructor|case|branch|numeral} of one too many",
            "{abstraction|application|constructor|case|numeral} of some too many",
            "case of one too many, a default among them",
            "{abstraction of 0|application of 0|application of 1|case of 0|branch of 0}",
            "{abstraction|application|constructor|case|branch} of a branch first",
            "{application|constructor} of a branch later",
            "case of a {term|numeral} later",
            "case of {equal|falling} tags{|, the bound counts rise}",
            "case of {two defaults, side by side|a default behind another branch}",
            "at the end of a long column",
            "long chain of kind {1|2|3|4|6}",
        ],
    },
    Reach {
        subject: "refusal 6",
        cases: 1_600,
        least: 3,
        look: free_numbers,
        features: &[
            "{free number 256|free number 257|far free number|the largest index}",
            "under {no binder|a few binders|many binders|more than 100 binders}",
        ],
    },
    Reach {
        subject: "faults on either side",
        cases: 3_000,
        least: 10,
        look: sides,
        features: &[
            "{1|2|3|4|5|6|8} {left|right}",
            "8 by 2,048 records",
            "7 by {15 words|2,049 words|fewer|more}",
            "9 by {one|more}",
            "left before right",
        ],
    },
];

/// A table with one fault, refused by it, and the words of its workspace.
fn refused(fault: Refusal, case: u64) -> (Vec<u32>, usize) {
    let random = &mut Random::new(21, case);
    let capacity = random.pick(&[16, 17, 40, 300, 2_047]);
    let table = faulty_table(random, &[fault], capacity);
    assert_eq!(loaded(&table, capacity).0, Err(fault), "{table:?}");
    (table, capacity)
}

/// A record of a table, with its own index.
struct Record {
    own: u32,
    kind: u32,
    value: u32,
    links: [u32; 2],
}

fn records(table: &[u32]) -> Vec<Record> {
    let words = table.chunks_exact(4).skip(1);
    let record = |(own, words): (u32, &[u32])| Record {
        own,
        kind: words[0],
        value: words[1],
        links: [words[2], words[3]],
    };
    (1..).zip(words).map(record).collect()
}

fn lengths(case: u64, census: &mut Census) {
    let (table, _) = refused(Refusal::TableLength, case);
    if table.len() < 4 {
        census.meet(format!("{} words", table.len()));
        return;
    }
    let (count, length) = (u64::from(table[1]), table.len() as u64);
    let (fitting, most) = (4 * (count + 1), u64::from(u32::MAX));
    census.meet(match count {
        0 => "count 0",
        1..=2_048 if length == fitting - 4 => "one record too few",
        1..=2_048 if length == fitting + 4 => "one record too many",
        1..=2_048 if length == fitting + 1 => "one word too many",
        1..=2_048 if length % 4 != 0 => "no whole records",
        1..=2_048 => "many records too few",
        2_049 => "count 2,049",
        _ if fitting & most == length && fitting >> 32 == 1 => "count that fits in 32 bits",
        _ if fitting & most == length => "count that fits in 32 bits, twice over",
        _ => "far count",
    });
    census.meet_if(count == 0 && length == 4, "the header alone");
}

fn headers(case: u64, census: &mut Census) {
    let (table, _) = refused(Refusal::Header, case);
    let count = table[1];
    match table[0] {
        0 => census.meet("form 0"),
        1 => {}
        2 => census.meet("form 2"),
        form if form < 1 << 16 => census.meet("form 3"),
        form => census.meet(["far even form", "far odd form"][form as usize % 2]),
    }
    match table[2] {
        0 => census.meet("root 0"),
        root if root <= count => {}
        root if root == count + 1 => census.meet("root after the last"),
        _ => census.meet("far root"),
    }
    match table[3] {
        0 => {}
        1 => census.meet("last word 1"),
        _ => census.meet("another last word"),
    }
}

fn long_tables(case: u64, census: &mut Census) {
    let (table, capacity) = refused(Refusal::TooLong, case);
    let over = table[1] as usize - capacity;
    census.meet(match over {
        1 => "one word",
        2..=20 => "a few words",
        _ => "many words",
    });
    census.meet_if(capacity == 16 && over == 1, "one word above 16");
    census.meet_if(table[1] == 2_048, "2,048 words");
}

fn values(case: u64, census: &mut Census) {
    let records = records(&refused(Refusal::Value, case).0);
    let count = records.len() as u32;
    for record in &records {
        if let Some(wrong) = wrong_value(record) {
            census.meet(wrong);
            census.meet_if(record.own == 1 && count > 1, "in the first record");
            census.meet_if(record.own == count && count > 1, "in the last record");
        }
    }
}

/// What is wrong with the kind or value of a record, if anything.
fn wrong_value(record: &Record) -> Option<String> {
    let (value, bound) = (record.value, record.value as usize);
    let above = |name: &str, least: u32| match value == least {
        true => format!("{name} just above"),
        false => format!("{name} far above"),
    };
    match record.kind {
        VARIABLE => (value > 32_767).then(|| above("index", 32_768)),
        CONSTRUCTOR if value == 0 => Some("tag 0".to_string()),
        CONSTRUCTOR => (value > 255).then(|| above("tag", 256)),
        // Value 0 is a default's.
        BRANCH => match value {
            0 | 16..=4_095 => None,
            1 => Some("branch's tag 0 of one bound".to_string()),
            _ if bound == MOST_BOUND => Some("branch's tag 0 of most bound".to_string()),
            2..=15 => Some("branch's tag 0 of several bound".to_string()),
            4_096..=4_111 => Some("branch's tag just above".to_string()),
            _ => Some("branch's tag far above".to_string()),
        },
        ABSTRACTION => (value != 0).then(|| "abstraction's value".to_string()),
        APPLICATION => (value != 0).then(|| "application's value".to_string()),
        CASE => (value != 0).then(|| "case's value".to_string()),
        NUMERAL => (value > 31).then(|| above("numeral", 32)),
        7 => Some("kind 7".to_string()),
        kind if kind % 8 == NUMERAL => Some("far kind that ends in a numeral's".to_string()),
        _ => Some("far kind".to_string()),
    }
}

fn links(case: u64, census: &mut Census) {
    let (table, _) = refused(Refusal::Link, case);
    let records = records(&table);
    let count = records.len() as u32;
    let mut named = vec![0; records.len() + 1];
    named[table[2] as usize] += 1;
    let (mut onward, mut back) = (true, false);
    for record in &records {
        for (name, link) in ["child", "next"].into_iter().zip(record.links) {
            if (1..=count).contains(&link) {
                named[link as usize] += 1;
            }
            if let Some(wrong) = wrong_link(record.own, link, count) {
                onward = false;
                back |= link <= record.own;
                census.meet(format!("{name} {wrong}"));
            }
        }
    }
    let unnamed = named[1..].contains(&0);
    let twice = named.iter().any(|times| *times > 1);
    census.meet_if(onward && unnamed && !twice, "only a record that none names");
    census.meet_if(onward && twice && !unnamed, "only a record named twice");
    census.meet_if(onward && twice && unnamed, "one named twice, one not");
    census.meet_if(back && !twice && !unnamed, "a circle, all named once");
    census.meet_if(table[2] != 1, "another root");
}

/// What is wrong with a link of record `own` in a table of `count` records.
fn wrong_link(own: u32, link: u32, count: u32) -> Option<&'static str> {
    match link {
        0 => None,
        _ if link == own => Some("to itself"),
        _ if link < own => Some("back"),
        _ if link <= count => None,
        _ if link == count + 1 => Some("past the last"),
        _ => Some("far off"),
    }
}

/// The records on the chain of a record's children.
fn children<'a>(all: &'a [Record], of: &Record) -> Vec<&'a Record> {
    let link = |to: u32| (to != 0).then(|| &all[to as usize - 1]);
    std::iter::successors(link(of.links[0]), |child| link(child.links[1])).collect()
}

fn structures(case: u64, census: &mut Census) {
    let (table, _) = refused(Refusal::Structure, case);
    let records = records(&table);
    let root = &records[table[2] as usize - 1];
    census.meet_if(root.kind == BRANCH, "root a branch");
    match root.links[1] {
        0 => {}
        next if records[next as usize - 1].kind == BRANCH => {
            census.meet("root with a next that is a branch");
        }
        _ => census.meet("root with a next"),
    }
    let column = records.len() > 20 && records.iter().all(|record| record.links[1] == 0);
    for record in &records {
        let children = children(&records, record);
        if let Some(wrong) = wrong_children(record, &children) {
            census.meet_if(column, "at the end of a long column");
            let long = format!("long chain of kind {}", record.kind);
            census.meet_if(children.len() > 20, long);
            census.meet(wrong);
        }
    }
}

/// What is wrong with the children of a record, if anything.
fn wrong_children(of: &Record, children: &[&Record]) -> Option<String> {
    let is_branch = |child: &&Record| child.kind == BRANCH;
    let count = children.len();
    let (name, least, most) = match of.kind {
        VARIABLE => ("variable", 0, 0),
        ABSTRACTION => ("abstraction", 1, 1),
        APPLICATION => ("application", 2, 2),
        CONSTRUCTOR => ("constructor", 0, MOST_ARGUMENTS),
        CASE => ("case", 1, MOST_BRANCHES + 1),
        NUMERAL => ("numeral", 0, 0),
        _ => ("branch", 1, 1),
    };
    if count < least {
        return Some(format!("{name} of {count}"));
    }
    if count > most {
        let by = if count == most + 1 { "one" } else { "some" };
        let with = match of.kind == CASE && is_default(children[1]) {
            true => ", a default among them",
            false => "",
        };
        return Some(format!("{name} of {by} too many{with}"));
    }
    if children.first().is_some_and(is_branch) {
        return Some(format!("{name} of a branch first"));
    }
    let later = children.get(1..).unwrap_or_default();
    if of.kind != CASE {
        let wrong = later.iter().any(is_branch);
        return wrong.then(|| format!("{name} of a branch later"));
    }
    match later.iter().find(|child| child.kind != BRANCH) {
        Some(child) if child.kind == NUMERAL => Some("case of a numeral later".to_string()),
        Some(_) => Some("case of a term later".to_string()),
        None => wrong_tags(later).map(str::to_string),
    }
}

fn is_default(record: &Record) -> bool {
    (record.kind, record.value) == (BRANCH, 0)
}

/// What is wrong with the tags of branches, if anything.
fn wrong_tags(branches: &[&Record]) -> Option<&'static str> {
    branches.windows(2).find_map(|pair| {
        if is_default(pair[1]) {
            return Some(match is_default(pair[0]) {
                true => "case of two defaults, side by side",
                false => "case of a default behind another branch",
            });
        }
        let [one, other] = [pair[0].value, pair[1].value];
        match ((one / 16).cmp(&(other / 16)), one % 16 < other % 16) {
            (Ordering::Less, _) => None,
            (Ordering::Equal, false) => Some("case of equal tags"),
            (Ordering::Equal, true) => Some("case of equal tags, the bound counts rise"),
            (Ordering::Greater, false) => Some("case of falling tags"),
            (Ordering::Greater, true) => Some("case of falling tags, the bound counts rise"),
        }
    })
}

fn free_numbers(case: u64, census: &mut Census) {
    let (table, _) = refused(Refusal::FreeNumber, case);
    let records = records(&table);
    let mut all = Vec::new();
    variables(&records, &records[table[2] as usize - 1], 0, &mut all);
    let wrong = all.iter().filter(|(index, binders)| *index > binders + 255);
    for (index, binders) in wrong {
        census.meet(match index - binders {
            256 => "free number 256",
            257 => "free number 257",
            _ => "far free number",
        });
        census.meet_if(*index == 32_767, "the largest index");
        census.meet(match binders {
            0 => "under no binder",
            1..=14 => "under a few binders",
            15..=100 => "under many binders",
            _ => "under more than 100 binders",
        });
    }
}

/// Each variable's index with the binders around it, from a record on.
fn variables(all: &[Record], of: &Record, binders: u32, found: &mut Vec<(u32, u32)>) {
    let inside = match of.kind {
        ABSTRACTION => 1,
        BRANCH => of.value % 16,
        _ => 0,
    };
    if of.kind == VARIABLE {
        found.push((of.value, binders));
    }
    for child in children(all, of) {
        variables(all, child, binders + inside, found);
    }
}

/// What an input is refused by, and on which side.
fn sides(case: u64, census: &mut Census) {
    let input = inputs::input(22, case);
    let (Some(request), Outcome::Refused(refusal)) = (Request::read(&input), outcome(&input))
    else {
        return;
    };
    let capacity = request.capacity as usize;
    match refusal {
        Refusal::Workspace => census.meet(match capacity {
            15 => "7 by 15 words",
            2_049 => "7 by 2,049 words",
            0..=14 => "7 by fewer",
            _ => "7 by more",
        }),
        Refusal::Budget => census.meet(match request.budget {
            1_000_001 => "9 by one",
            _ => "9 by more",
        }),
        refusal => {
            let left = loaded(&request.left, capacity).0 == Err(refusal);
            let right = loaded(&request.right, capacity).0.is_err();
            let side = if left { "left" } else { "right" };
            census.meet(format!("{refusal} {side}"));
            census.meet_if(left && right, "left before right");
            let is_longest = refusal == Refusal::TooLong && capacity == 2_047;
            census.meet_if(is_longest, "8 by 2,048 records");
        }
    }
}
