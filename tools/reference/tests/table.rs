//! Loading and writing: each clause of each refusal beside a neighbour that
//! passes it, and faults that are neighbours in the order 7, 1, 2, 8, 3, 4, 5, 6, in
//! which each is looked for over the whole table.

mod common;

use common::{loaded, numbers, rows, table, workspace};
use reference::refusal::Refusal;
use reference::table::write;
use reference::term::{MOST_ARGUMENTS, MOST_BOUND, MOST_BRANCHES};

/// The number by which loading into so many words is refused, which changes nothing; or
/// the length of the term, behind which zeros stand.
fn load(table: &[u32], capacity: usize) -> Result<u32, u32> {
    let (answer, words) = loaded(table, capacity);
    match answer {
        Err(_) => assert_eq!(words, vec![77; capacity]),
        Ok(length) => assert!(words[length as usize..].iter().all(|word| *word == 0)),
    }
    answer.map_err(|refusal| refusal.number())
}

/// A table whose root is record 1, of records with `;` between them.
fn stored(text: &str) -> Vec<u32> {
    let record = |record: &str| numbers(record).try_into().expect("four words");
    table(&text.split(';').map(record).collect::<Vec<[u32; 4]>>())
}

/// Records, and the number by which they are refused in 16 words, if they are.
const TABLES: &str = "
    # Kinds, of which 6 is the last.
    3: 7,0,0,0
    3: 8,0,0,0
    3: 14,0,0,0
    3: 4294967295,0,0,0
    3: 1,0,2,0; 7,0,0,0
    ok: 6,0,0,0
    # Values of each kind.
    3: 0,32768,0,0
    3: 0,4294967295,0,0
    3: 3,0,0,0
    3: 3,256,0,0
    3: 1,1,2,0; 0,0,0,0
    3: 2,1,2,0; 0,0,0,3; 0,0,0,0
    3: 4,1,2,0; 0,0,0,0
    # Branches with tag 0 that bind, or with tag 256.
    3: 4,0,2,0; 0,0,0,3; 5,1,4,0; 0,0,0,0
    3: 4,0,2,0; 0,0,0,3; 5,15,4,0; 0,0,0,0
    3: 4,0,2,0; 0,0,0,3; 5,4096,4,0; 0,0,0,0
    3: 6,32,0,0
    3: 6,65536,0,0
    3: 6,4294967295,0,0
    # The largest index passes this check and meets refusal 6.
    6: 0,32767,0,0
    ok: 3,1,0,0
    ok: 3,255,0,0
    ok: 4,0,2,0; 0,0,0,3; 5,0,4,0; 0,0,0,0
    ok: 4,0,2,0; 0,0,0,3; 5,16,4,0; 0,0,0,0
    ok: 6,31,0,0
    # To the own record, back, and past the last record.
    4: 1,0,1,0; 0,0,0,0
    4: 1,0,2,1; 0,0,0,0
    4: 1,0,2,0; 0,0,2,0
    4: 1,0,2,0; 0,0,0,1
    4: 1,0,2,0; 0,0,1,0
    4: 1,0,3,0; 0,0,0,0
    4: 1,0,2,3; 0,0,0,0
    4: 1,0,2,0; 0,0,0,4294967295
    4: 1,0,2147483648,0; 0,0,0,0
    # Record 2, then record 3, is named by none.
    4: 0,0,0,0; 0,0,0,0
    4: 2,0,2,0; 0,0,0,0; 0,0,0,0
    # Record 3 is named twice.
    4: 2,0,2,3; 0,0,0,3; 0,0,0,0
    4: 2,0,2,0; 1,0,3,3; 0,0,0,0
    4: 2,0,2,0; 1,0,4,3; 1,0,4,0; 0,0,0,0
    # Every record is named once, but apart from the root by itself or in a circle.
    4: 0,0,0,0; 0,0,0,2
    4: 0,0,0,0; 1,0,3,0; 0,0,0,2
    ok: 2,0,2,0; 0,0,0,3; 0,0,0,0
    ok: 2,0,2,0; 1,0,3,4; 0,0,0,0; 0,0,0,0
    ok: 2,0,2,0; 1,0,4,3; 0,0,0,0; 0,0,0,0
    # A branch below an abstraction, in an application, as an argument, as a scrutinee.
    5: 1,0,2,0; 5,16,3,0; 0,0,0,0
    5: 2,0,2,0; 5,16,3,4; 0,0,0,0; 0,0,0,0
    5: 2,0,2,0; 0,0,0,3; 5,16,4,0; 0,0,0,0
    5: 3,1,2,0; 5,16,3,0; 0,0,0,0
    5: 4,0,2,0; 5,16,3,0; 0,0,0,0
    # Branches without a body, with two, and with a branch as body.
    5: 4,0,2,0; 0,0,0,3; 5,16,0,0
    5: 4,0,2,0; 0,0,0,3; 5,16,4,0; 0,0,0,5; 0,0,0,0
    5: 4,0,2,0; 0,0,0,3; 5,16,4,0; 5,16,5,0; 0,0,0,0
    # A numeral with a branch or a numeral as its child.
    5: 6,1,2,0; 5,16,3,0; 0,0,0,0
    5: 6,1,2,0; 6,1,0,0
    # A term in a branch's place, alone and after a branch.
    5: 4,0,2,0; 0,0,0,3; 0,0,0,0
    5: 4,0,2,0; 0,0,0,3; 6,16,0,0
    5: 4,0,2,0; 0,0,0,3; 5,16,4,5; 0,0,0,0; 0,0,0,0
    ok: 4,0,2,0; 0,0,0,3; 5,16,4,0; 0,0,0,0
    # A root that is a branch, or has a next.
    5: 5,16,2,0; 0,0,0,0
    5: 0,0,0,2; 0,0,0,0
    5: 1,0,2,3; 0,0,0,0; 0,0,0,0
    5: 6,0,0,2; 0,0,0,0
    # A default as the root, as a scrutinee, without a body and with two.
    5: 5,0,2,0; 0,0,0,0
    5: 4,0,2,0; 5,0,3,0; 0,0,0,0
    5: 4,0,2,0; 0,0,0,3; 5,0,0,0
    5: 4,0,2,0; 0,0,0,3; 5,0,4,0; 0,0,0,5; 0,0,0,0
    # An index under no binder, one, none in a constructor, 9 in a branch, none in its
    # scrutinee and in a default, and 3 in a branch and an abstraction.
    ok: 0,255,0,0
    6: 0,256,0,0
    ok: 1,0,2,0; 0,256,0,0
    6: 1,0,2,0; 0,257,0,0
    ok: 3,9,2,0; 0,0,0,3; 0,255,0,0
    6: 3,9,2,0; 0,0,0,3; 0,256,0,0
    ok: 4,0,2,0; 0,0,0,3; 5,25,4,0; 0,264,0,0
    6: 4,0,2,0; 0,0,0,3; 5,25,4,0; 0,265,0,0
    ok: 4,0,2,0; 0,255,0,3; 5,25,4,0; 0,0,0,0
    6: 4,0,2,0; 0,256,0,3; 5,25,4,0; 0,0,0,0
    ok: 4,0,2,0; 0,0,0,3; 5,0,4,0; 0,255,0,0
    6: 4,0,2,0; 0,0,0,3; 5,0,4,0; 0,256,0,0
    ok: 4,0,2,0; 0,0,0,3; 5,18,4,0; 1,0,5,0; 0,258,0,0
    6: 4,0,2,0; 0,0,0,3; 5,18,4,0; 1,0,5,0; 0,259,0,0
    # 3 before 4: record 1 breaks a link rule, or nothing names record 2, whose kind or
    # value is wrong; a numeral is too large and names itself.
    3: 1,0,1,0; 7,0,0,0
    3: 1,0,3,0; 0,32768,0,0
    3: 1,0,4,0; 3,0,0,0
    3: 0,0,0,0; 0,32768,0,0
    4: 6,31,1,0
    3: 6,32,1,0
    # 4 before 5: wrong children or a wrong root first, then behind them a record that
    # none names.
    5: 1,0,0,0
    4: 1,0,0,0; 0,0,0,0
    5: 2,0,2,0; 0,0,0,0
    4: 2,0,2,0; 0,0,0,0; 0,0,0,0
    5: 0,0,2,0; 0,0,0,0
    4: 0,0,2,0; 0,0,0,0; 0,0,0,0
    5: 4,0,0,0
    4: 4,0,0,0; 0,0,0,0
    4: 5,16,2,0; 0,0,0,0; 0,0,0,0
    4: 0,0,0,2; 0,0,0,0; 0,0,0,0
    4: 6,0,2,0; 0,0,0,0; 0,0,0,0
    4: 1,0,2,0; 5,16,3,0; 0,0,0,0; 0,0,0,0
    4: 4,0,2,0; 0,0,0,3; 5,32,4,5; 0,0,0,0; 5,16,6,0; 0,0,0,0; 0,0,0,0
    # 5 before 6: 256 applied to an abstraction without a body, or with one.
    5: 2,0,2,0; 0,256,0,3; 1,0,0,0
    6: 2,0,2,0; 0,256,0,3; 1,0,4,0; 0,0,0,0
    # An application of three, the first 256; a variable, and a numeral, with the child 256.
    5: 2,0,2,0; 0,256,0,3; 0,0,0,4; 0,0,0,0
    6: 2,0,2,0; 0,256,0,3; 0,0,0,0
    5: 0,0,2,0; 0,256,0,0
    5: 6,0,2,0; 0,256,0,0
    6: 2,0,2,0; 6,0,0,3; 0,256,0,0
    # A branch as the root, its body 256 + 1 under one binder; branches whose tags fall, the
    # first body 256; a case of 256 whose second child is no branch; a root with a next.
    5: 5,17,2,0; 0,257,0,0
    5: 4,0,2,0; 0,0,0,3; 5,32,4,5; 0,256,0,0; 5,16,6,0; 0,0,0,0
    6: 4,0,2,0; 0,0,0,3; 5,16,4,5; 0,256,0,0; 5,32,6,0; 0,0,0,0
    5: 4,0,2,0; 0,256,0,3; 0,0,0,0
    6: 4,0,2,0; 0,256,0,0
    5: 0,256,0,2; 0,0,0,0
    5: 0,0,0,2; 0,256,0,0
";

#[test]
fn tables_and_their_refusals() {
    for row in rows(TABLES) {
        let (expected, records) = row.split_once(':').expect("a number");
        let count = records.split(';').count() as u32;
        let expected = expected.parse().map_or(Ok(count), Err);
        assert_eq!(load(&stored(records), 16), expected, "{row}");
    }
}

/// The identity, 1,0, with another word at a place.
fn identity_with(place: usize, word: u32) -> Vec<u32> {
    let mut table = stored("1,0,2,0; 0,0,0,0");
    table[place] = word;
    table
}

/// A column of abstractions over a last record: `count` records.
fn column(count: u32, last: [u32; 4]) -> Vec<u32> {
    let mut records: Vec<_> = (1..count).map(|own| [1, 0, own + 1, 0]).collect();
    records.push(last);
    table(&records)
}

#[test]
fn refusal_1_by_the_length_and_the_count() {
    let good = identity_with(3, 0);
    assert_eq!(load(&good, 16), Ok(2));
    for length in 0..12 {
        assert_eq!(load(&good[..length], 16), Err(1), "{length}");
    }
    for surplus in 1..=4 {
        let longer = [&good[..], &vec![0; surplus]].concat();
        assert_eq!(load(&longer, 16), Err(1), "{surplus}");
    }
    // The last two give 12 in 32 bits as four times the count plus one.
    for count in [0, 1, 3, u32::MAX, 2 + (1 << 30), 2 + (1 << 31)] {
        assert_eq!(load(&identity_with(1, count), 16), Err(1), "{count}");
    }
    // A header alone has 4 x (0 + 1) words, but a count is at least 1.
    assert_eq!(load(&[1, 0, 1, 0], 16), Err(1));
    // 2,048 records are allowed, and 2,049 are not, although the length fits.
    assert_eq!(load(&column(2_048, [0; 4]), 2_048), Ok(2_048));
    assert_eq!(load(&column(2_049, [0; 4]), 2_048), Err(1));
}

#[test]
fn refusal_2_by_each_word_before_8_and_behind_1() {
    let long = column(17, [0; 4]);
    for (place, words) in [
        (0, [0, 2, 3, u32::MAX]),
        (2, [0, 18, 1 << 16, u32::MAX]),
        (3, [1, 2, 1 << 31, u32::MAX]),
    ] {
        for word in words {
            let mut wrong = identity_with(place, word);
            assert_eq!(load(&wrong, 16), Err(2), "{place} {word}");
            assert_eq!(load(&[&wrong[..], &[0]].concat(), 16), Err(1));
            wrong[1] = 3;
            assert_eq!(load(&wrong, 16), Err(1));
            let mut both = long.clone();
            both[place] = word;
            assert_eq!(load(&both, 16), Err(2), "{place} {word}");
        }
    }
    // Root 2 is within 1 to n; that nothing names record 1 is refusal 4.
    assert_eq!(load(&identity_with(2, 3), 16), Err(2));
    assert_eq!(load(&identity_with(2, 2), 16), Err(4));
}

#[test]
fn refusals_7_and_8() {
    for capacity in [0, 15, 2_049] {
        assert_eq!(load(&[], capacity), Err(7));
        assert_eq!(load(&identity_with(1, 3), capacity), Err(7));
        assert_eq!(load(&identity_with(3, 0), capacity), Err(7));
    }
    for capacity in [16, 2_048] {
        assert_eq!(load(&identity_with(3, 0), capacity), Ok(2));
    }
    assert_eq!(load(&column(16, [0; 4]), 16), Ok(16));
    assert_eq!(load(&column(17, [0; 4]), 16), Err(8));
    assert_eq!(load(&column(17, [0; 4]), 17), Ok(17));
    for wrong in [[7, 0, 0, 0], [0, 32_768, 0, 0], [3, 0, 0, 0], [6, 32, 0, 0]] {
        assert_eq!(load(&column(17, wrong), 16), Err(8), "{wrong:?}");
        assert_eq!(load(&column(16, wrong), 16), Err(3), "{wrong:?}");
    }
}

/// A parent with `count` variables as children.
fn parent(kind: u32, value: u32, count: u32) -> Vec<u32> {
    let mut records = vec![[kind, value, if count == 0 { 0 } else { 2 }, 0]];
    records.extend((1..=count).map(|i| [0, 0, 0, if i == count { 0 } else { i + 2 }]));
    table(&records)
}

#[test]
fn refusal_5_by_the_number_of_children() {
    let most = MOST_ARGUMENTS as u32;
    // Kind, value and the numbers of variables that may be its children.
    for (kind, value, right) in [
        (0, 0, 0..=0),
        (1, 0, 1..=1),
        (2, 0, 2..=2),
        (3, 1, 0..=most),
        (4, 0, 1..=1),
        (6, 3, 0..=0),
    ] {
        for count in 0..=17 {
            let answer = load(&parent(kind, value, count), 32);
            let expected = right.contains(&count).then_some(count + 1).ok_or(5);
            assert_eq!(answer, expected, "kind {kind} with {count} children");
        }
    }
    // One argument too many, which leads back.
    let mut both = parent(3, 1, most + 1);
    let last = both.len() - 1;
    both[last] = 2;
    assert_eq!(load(&both, 17), Err(4));
}

/// A case of a variable with branches of the given values, each with a
/// variable as its body: records 3, 5, 7.. and 4, 6, 8..
fn case_with(values: &[u32]) -> Vec<u32> {
    let count = values.len() as u32;
    let mut records = vec![[4, 0, 2, 0], [0, 0, 0, if count == 0 { 0 } else { 3 }]];
    for (own, value) in (3..).step_by(2).zip(values) {
        let next = if own == 2 * count + 1 { 0 } else { own + 2 };
        records.extend([[5, *value, own + 1, next], [0, 0, 0, 0]]);
    }
    table(&records)
}

/// Values of branches, and the number by which they are refused, if they are. A default
/// has value 0.
const BRANCHES: &str = "
    # Tags 1, 2 and 1, 255 rise; equal and falling ones don't, whatever is bound.
    ok: 16,32
    ok: 25,4080
    5: 16,16
    5: 16,17
    5: 32,16
    5: 32,25
    5: 33,32
    5: 16,48,32
    # A default stands first, and only once.
    ok: 0,16
    5: 0,0
    5: 16,0
    5: 4080,0
    5: 16,0,32
    5: 16,32,0
    5: 0,0,16
    5: 0,16,0
    # Where tag 0 binds something it is 3 before 5, first or not.
    3: 1
    3: 0,1
    3: 16,15
    3: 15,16
    3: 16,0,1
";

#[test]
fn refusal_5_by_the_branches() {
    for row in rows(BRANCHES) {
        let (expected, values) = row.split_once(':').expect("a number");
        let values = numbers(values);
        let length = 2 * values.len() as u32 + 2;
        let expected = expected.parse().map_or(Ok(length), Err);
        assert_eq!(load(&case_with(&values), 16), expected, "{row}");
    }
    // From tag 0, a default's, and from tag 1.
    let most = MOST_BRANCHES as u32;
    for first in [0, 1] {
        for count in [0, 1, most, most + 1] {
            let values: Vec<u32> = (first..first + count).map(|tag| 16 * tag).collect();
            let expected = (count <= most).then_some(2 * count + 2).ok_or(5);
            assert_eq!(load(&case_with(&values), 64), expected, "{values:?}");
        }
    }
    // A tag is multiplied by 16, and what is bound is added.
    let bound = 16 * 255 + MOST_BOUND as u32;
    assert_eq!(load(&case_with(&[bound]), 16), Ok(4));
    assert_eq!(load(&case_with(&[bound + 1]), 16), Err(3));
}

/// The words of a term, its records in prefix order, and those in another order, in
/// which the chain of the case is numbered before what hangs on its members.
const WRITTEN: [(&str, &str, &str); 3] = [
    // case 2(f5) of 1/0 -> f0, 2/1 -> 0: branches have the values 1 x 16 and 2 x 16 + 1.
    (
        "20,267,40,133,0,269,0",
        "4,0,2,0; 3,2,3,4; 0,5,0,0; 5,16,5,6; 0,0,0,0; 5,33,7,0; 0,0,0,0",
        "4,0,2,0; 3,2,7,3; 5,16,6,4; 5,33,5,0; 0,0,0,0; 0,0,0,0; 0,5,0,0",
    ),
    // 3 31 (case 0 of nothing), with numerals.
    (
        "2,2,30,254,4,6",
        "2,0,2,0; 2,0,3,5; 6,3,0,4; 6,31,0,0; 4,0,6,0; 6,0,0,0",
        "2,0,2,0; 2,0,4,3; 4,0,6,0; 6,3,0,5; 6,31,0,0; 6,0,0,0",
    ),
    // case f2 of _ -> f0, 1/2 -> 1.
    (
        "20,16,5,0,149,8",
        "4,0,2,0; 0,2,0,3; 5,0,4,5; 0,0,0,0; 5,18,6,0; 0,1,0,0",
        "4,0,2,0; 0,2,0,3; 5,0,5,4; 5,18,6,0; 0,0,0,0; 0,1,0,0",
    ),
];

#[test]
fn tables_in_any_order_are_written_in_prefix_order() {
    for (words, prefix, other) in WRITTEN {
        let (words, prefix) = (numbers(words), stored(prefix));
        let length = words.len() as u32;
        for table in [&prefix, &stored(other)] {
            let (answer, loaded) = loaded(table, 16);
            assert_eq!((answer, &loaded[..words.len()]), (Ok(length), &words[..]));
            let mut written = vec![7; prefix.len()];
            assert_eq!(write(&loaded, length, &mut written), Ok(length));
            assert_eq!(written, prefix);
        }
    }
}

#[test]
fn refusals_of_writing() {
    let words = workspace(&numbers(WRITTEN[0].0), 16);
    for (workspace, length, table, refusal) in [
        (&words, 7, 0, Refusal::TableLength),
        (&words, 7, 28, Refusal::TableLength),
        (&words, 7, 31, Refusal::TableLength),
        (&words, 7, 33, Refusal::TableLength),
        (&words, 7, 36, Refusal::TableLength),
        // 10 comes before 1, and 7 before both.
        (&words, 0, 0, Refusal::NotATerm),
        (&words, 6, 32, Refusal::NotATerm),
        (&words, 8, 32, Refusal::NotATerm),
        (&words, 17, 32, Refusal::NotATerm),
        (&words, u32::MAX, 32, Refusal::NotATerm),
        // A payload of 32, and a default behind another branch.
        (&workspace(&[262], 16), 1, 8, Refusal::NotATerm),
        (
            &workspace(&[20, 16, 149, 8, 5, 0], 16),
            6,
            28,
            Refusal::NotATerm,
        ),
        (&vec![0; 15], 1, 8, Refusal::Workspace),
        (&vec![0; 15], 0, 0, Refusal::Workspace),
        (&vec![0; 2_049], 1, 8, Refusal::Workspace),
    ] {
        let mut out = vec![7; table];
        assert_eq!(write(workspace, length, &mut out), Err(refusal));
        assert_eq!(out, vec![7; table]);
    }
}
