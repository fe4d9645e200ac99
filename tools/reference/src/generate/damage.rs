//! Tables with chosen faults, one clause of a refusal at a time, and words
//! that are no whole term.

use crate::default::{self, Fault};
use crate::generate::families::deep;
use crate::generate::tables::{node, table, Node, Order};
use crate::generate::terms::{replace, subterms, term, Style};
use crate::random::Random;
use crate::refusal::Refusal;
use crate::table::{LONGEST_TABLE, MOST_RECORDS, RECORD};
use crate::term::{
    var, Term, LARGEST_FREE, LARGEST_INDEX, LARGEST_NUMERAL, MOST_ARGUMENTS, MOST_BOUND,
    MOST_BRANCHES,
};
use crate::words::{kind, word, COUNTS};

/// The faults that a table can have, in the order in which loading looks for
/// them.
pub const FAULTS: [Refusal; 7] = [
    Refusal::TableLength,
    Refusal::Header,
    Refusal::TooLong,
    Refusal::Value,
    Refusal::Link,
    Refusal::Structure,
    Refusal::FreeNumber,
];

/// A table with the given faults, for a workspace of `capacity` words. Of two
/// faults the one that loading looks for first is there in any case. The
/// longest workspace has no table that is too long for it.
pub fn faulty_table(random: &mut Random, faults: &[Refusal], capacity: usize) -> Vec<u32> {
    let has = |fault| faults.contains(&fault);
    let forest = loop {
        let forest = faulty_forest(random, faults, capacity);
        let count: usize = forest.iter().map(Node::size).sum();
        if count <= MOST_RECORDS && (count > capacity) == has(Refusal::TooLong) {
            break forest;
        }
    };
    let order = Order::random(random);
    let mut words = table(random, &forest, order);
    if has(Refusal::Link) {
        break_link(random, &mut words);
    }
    if has(Refusal::Value) {
        break_value(random, &mut words);
    }
    if has(Refusal::Header) {
        break_header(random, &mut words);
    }
    if has(Refusal::TableLength) {
        break_length(random, &mut words);
    }
    words
}

/// A table that is wrong by one numeral alone, by its value or by its children.
pub fn faulty_numeral(random: &mut Random, fault: Refusal, capacity: usize) -> Vec<u32> {
    loop {
        let part = match fault {
            Refusal::Value => node(kind::NUMERAL, large_numeral(random), Vec::new()),
            _ => numeral_with_children(random),
        };
        let host = planted(random, &part, capacity.min(30));
        if host.size() <= capacity {
            let order = Order::random(random);
            return table(random, &[host], order);
        }
    }
}

/// A table that is wrong by tag 0 alone.
pub fn faulty_default(random: &mut Random, fault: Fault, capacity: usize) -> Vec<u32> {
    let host = planted_default(random, fault, capacity);
    let order = Order::random(random);
    table(random, &[host], order)
}

/// Words that are no term by tag 0 alone, at most `most` of them.
pub fn faulty_default_words(random: &mut Random, fault: Fault, most: usize) -> Vec<u32> {
    node_words(&planted_default(random, fault, most))
}

/// Any term of at most `most` records, at least 16, with the fault put in.
fn planted_default(random: &mut Random, fault: Fault, most: usize) -> Node {
    loop {
        let part = match fault {
            Fault::Binds => binding_tag_0(random),
            Fault::Constructor => {
                let count = random.pick(&[0, 1, 2, MOST_ARGUMENTS]);
                node(kind::CONSTRUCTOR, 0, vec![leaf(); count])
            }
            Fault::Place => misplaced_default(random),
        };
        let host = planted(random, &part, most.min(30));
        if host.size() <= most {
            return host;
        }
    }
}

/// A case with a branch of tag 0 that binds something.
fn binding_tag_0(random: &mut Random) -> Node {
    let any = random.between(1, MOST_BOUND) as u32;
    let bound = random.pick(&[1, any, MOST_BOUND as u32]);
    let mut branches = vec![arm(0, bound)];
    branches.extend(random.percent(50).then(|| arm(2, bound)));
    case_with(branches)
}

/// Any term with the part put in somewhere.
fn planted(random: &mut Random, part: &Node, most: usize) -> Node {
    let size = random.between(1, most);
    let style = Style::random(random);
    let host = term(random, size, 0, style);
    let place = random.below(subterms(&host).len());
    let mut root = Node::of(&host);
    plant(&mut root, &mut Some(place), part);
    root
}

/// A numeral above the limit.
fn large_numeral(random: &mut Random) -> u32 {
    let least = LARGEST_NUMERAL + 1;
    // The last ones fall back below the limit when cut to fewer bits.
    random.pick(&[least, least, least + 1, 256, (1 << 16) + 1, 1 << 28])
}

fn numeral_with_children(random: &mut Random) -> Node {
    let numeral = random.below(LARGEST_NUMERAL as usize + 1) as u32;
    let children = match random.below(3) {
        0 => vec![leaf(), leaf()],
        1 => vec![node(kind::NUMERAL, 0, Vec::new())],
        _ => vec![leaf()],
    };
    node(kind::NUMERAL, numeral, children)
}

/// A forest with the faults that the records' tree can have.
fn faulty_forest(random: &mut Random, faults: &[Refusal], capacity: usize) -> Vec<Node> {
    let size = if faults.contains(&Refusal::TooLong) {
        let any = random.between(capacity + 1, (capacity + 40).min(MOST_RECORDS));
        random.pick(&[capacity + 1, any])
    } else {
        let most = random.pick(&[8, 30, 30, 200, MOST_RECORDS]);
        random.between(1, capacity.min(most))
    };
    let style = Style::random(random);
    let mut host = if size >= 8 && random.percent(25) {
        deep(random, size)
    } else {
        term(random, size, 0, style)
    };
    if faults.contains(&Refusal::FreeNumber) {
        host = free_too_large(random, &host);
    }
    if !faults.contains(&Refusal::Structure) {
        return vec![Node::of(&host)];
    }
    let mut root = Node::of(&host);
    match random.below(15) {
        0 => vec![root, leaf()],
        1 => vec![root, arm(1, 0)],
        2 | 3 if size > MOST_BRANCHES + 2 => long_chain(random, size),
        _ => {
            let place = random.below(subterms(&host).len());
            let part = malformed(random);
            plant(&mut root, &mut Some(place), &part);
            vec![root]
        }
    }
}

/// The term with one variable whose free number is above its limit.
pub fn free_too_large(random: &mut Random, term: &Term) -> Term {
    let parts = subterms(term);
    let variables: Vec<usize> = (0..parts.len())
        .filter(|i| matches!(parts[*i].0, Term::Var(_)))
        .collect();
    let place = match variables.len() {
        0 => 0,
        _ => random.pick(&variables),
    };
    let least = parts[place].1 + LARGEST_FREE + 1;
    let index = random.pick(&[least, least, least + 1, LARGEST_INDEX]);
    replace(term, place, &var(index.max(least)))
}

fn leaf() -> Node {
    node(kind::VARIABLE, 0, Vec::new())
}

fn arm(tag: u32, bound: u32) -> Node {
    node(kind::BRANCH, tag * COUNTS + bound, vec![leaf()])
}

fn arms(tags: &[u32]) -> Vec<Node> {
    tags.iter().map(|tag| arm(*tag, 0)).collect()
}

/// A case of a variable with the given further children.
fn case_with(children: Vec<Node>) -> Node {
    let all = std::iter::once(leaf()).chain(children);
    node(kind::CASE, 0, all.collect())
}

/// A part with a wrong number or kind of children or of tags; the place it
/// is put in is right for a term.
fn malformed(random: &mut Random) -> Node {
    let more = random.pick(&[1, 1, 2]);
    let inner = |children| node(kind::BRANCH, COUNTS, children);
    match random.below(36) {
        0 => node(kind::VARIABLE, 0, vec![leaf()]),
        1 => node(kind::ABSTRACTION, 0, Vec::new()),
        2 => node(kind::ABSTRACTION, 0, vec![leaf(), leaf()]),
        3 => node(kind::ABSTRACTION, 0, arms(&[1])),
        4 => node(kind::APPLICATION, 0, Vec::new()),
        5 => node(kind::APPLICATION, 0, vec![leaf()]),
        6 => node(kind::APPLICATION, 0, vec![leaf(), leaf(), leaf()]),
        7 => node(kind::APPLICATION, 0, vec![arm(1, 0), leaf()]),
        8 => node(kind::APPLICATION, 0, vec![leaf(), arm(1, 0)]),
        9 | 23 | 24 => node(kind::CONSTRUCTOR, 1, vec![leaf(); MOST_ARGUMENTS + more]),
        10 => node(kind::CONSTRUCTOR, 1, vec![leaf(), arm(1, 0), leaf()]),
        11 => node(kind::CASE, 0, Vec::new()),
        12 => node(kind::CASE, 0, arms(&[1, 2])),
        13 => case_with(vec![leaf()]),
        14 => case_with(vec![arm(1, 0), leaf()]),
        15 | 25 | 26 => case_with(rising(1, MOST_BRANCHES + more)),
        16 => case_with(arms(&[3, 3])),
        17 => case_with(vec![arm(3, 0), arm(3, 1)]),
        18 => case_with(arms(&[1, 3, 2])),
        19 => case_with(vec![arm(4, 0), arm(3, MOST_BOUND as u32)]),
        20 => case_with(vec![inner(Vec::new())]),
        21 => case_with(vec![inner(vec![leaf(), leaf()])]),
        22 => case_with(vec![inner(arms(&[2]))]),
        27 | 28 => numeral_with_children(random),
        29 => node(kind::NUMERAL, 0, arms(&[1])),
        30 => case_with(vec![node(kind::NUMERAL, COUNTS, Vec::new())]),
        31 | 32 => misplaced_default(random),
        // A default and as many others as a case has branches.
        33 | 34 => case_with(rising(0, MOST_BRANCHES + 1)),
        _ => arm(1, 0),
    }
}

/// So many branches, of the tags from the first on.
fn rising(first: u32, count: usize) -> Vec<Node> {
    (first..).take(count).map(|tag| arm(tag, 0)).collect()
}

/// A case with a default that is not first, or with a second one.
fn misplaced_default(random: &mut Random) -> Node {
    let tags: [&[u32]; 7] = [
        &[1, 0],
        &[255, 0],
        &[0, 0],
        &[1, 0, 2],
        &[1, 2, 0],
        &[0, 1, 0],
        &[0, 0, 1],
    ];
    case_with(arms(random.pick(&tags)))
}

/// Replaces the node at `place`, counting those that are not branches.
fn plant(host: &mut Node, place: &mut Option<usize>, new: &Node) {
    if host.kind != kind::BRANCH {
        if *place == Some(0) {
            *host = new.clone();
            *place = None;
            return;
        }
        *place = place.map(|left| left - 1);
    }
    for child in &mut host.children {
        if place.is_some() {
            plant(child, place, new);
        }
    }
}

/// Malformed trees of `count` records, more than a right chain can have, in
/// one chain or column.
fn long_chain(random: &mut Random, count: usize) -> Vec<Node> {
    let chain = vec![leaf(); count - 1];
    let only = |kind, children| vec![node(kind, u32::from(kind == kind::CONSTRUCTOR), children)];
    match random.below(8) {
        0 => vec![leaf(); count],
        1 => only(kind::ABSTRACTION, chain),
        2 => only(kind::APPLICATION, chain),
        3 => only(kind::CONSTRUCTOR, chain),
        4 => only(kind::CASE, chain),
        // A column of abstractions whose last one has no body.
        5 => {
            let last = node(kind::ABSTRACTION, 0, Vec::new());
            let wrap = |inner, _| node(kind::ABSTRACTION, 0, vec![inner]);
            vec![(1..count).fold(last, wrap)]
        }
        6 => only(kind::NUMERAL, chain),
        // A column of variables, each the only child of the one above.
        _ => vec![(1..count).fold(leaf(), |inner, _| node(kind::VARIABLE, 0, vec![inner]))],
    }
}

/// The number of records that the length of a table leaves room for.
fn records(words: &[u32]) -> usize {
    words.len() / RECORD - 1
}

fn break_length(random: &mut Random, words: &mut Vec<u32>) {
    let count = words[1];
    match random.below(11) {
        0 => words.truncate(random.below(RECORD)),
        1 => words.truncate(words.len() - RECORD),
        2 => words.truncate(RECORD + random.below(words.len() - RECORD)),
        3 if words.len() < LONGEST_TABLE => words.push(random.word()),
        4 if words.len() < LONGEST_TABLE => words.extend([0; RECORD]),
        5 => words[1] = count - 1,
        6 => {
            words[1] = 0;
            words.truncate(RECORD);
        }
        // Four times such a count plus one falls back into 32 bits.
        7 => words[1] = count + (1 << 30),
        8 => words[1] = count + (1 << 31),
        9 => words[1] = random.pick(&[u32::MAX, u32::MAX >> 2, MOST_RECORDS as u32 + 1]),
        _ => words[1] = count + 1,
    }
}

fn break_header(random: &mut Random, words: &mut [u32]) {
    let count = records(words) as u32;
    let large = random.pick(&[1 << 16, 1 << 31, u32::MAX]);
    match random.below(3) {
        0 => words[0] = random.pick(&[0, 2, 3, large, large | 1]),
        1 => words[2] = random.pick(&[0, count + 1, count + 1, large.saturating_add(count)]),
        _ => words[3] = random.pick(&[1, count, large]),
    }
}

fn break_value(random: &mut Random, words: &mut [u32]) {
    let own = RECORD * random.between(1, records(words));
    let large = random.pick(&[1 << 16, 1 << 31, u32::MAX]);
    if random.percent(40) {
        words[own] = random.pick(&[7, 7, 8, 13, 14, large]);
        return;
    }
    if random.percent(30) {
        words[own] = random.pick(&[kind::NUMERAL, kind::NUMERAL, kind::BRANCH]);
    }
    words[own + 1] = match words[own] {
        kind::VARIABLE => random.pick(&[LARGEST_INDEX + 1, LARGEST_INDEX + 2, large]),
        kind::CONSTRUCTOR => random.pick(&[0, 256, 257, large]),
        kind::BRANCH => random.pick(&[
            1,
            2,
            MOST_BOUND as u32,
            256 * COUNTS,
            256 * COUNTS + 1,
            large,
        ]),
        kind::NUMERAL if random.percent(70) => large_numeral(random),
        kind::NUMERAL => large,
        _ => random.pick(&[1, COUNTS, large]),
    };
}

fn break_link(random: &mut Random, words: &mut [u32]) {
    let count = records(words);
    let own = random.between(1, count);
    let link = RECORD * own + random.pick(&[2, 3]);
    let large = random.pick(&[1 << 16, 1 << 31, u32::MAX]);
    let used: Vec<usize> = (RECORD..words.len())
        .filter(|at| at % RECORD >= 2 && words[*at] != 0)
        .collect();
    match random.below(9) {
        0 if own > 1 => words[link] = random.between(1, own - 1) as u32,
        1 => words[link] = random.pick(&[count as u32 + 1, count as u32 + 2, large]),
        2 if !used.is_empty() => words[random.pick(&used)] = 0,
        3 if own < count && words[link] == 0 => words[link] = random.between(own + 1, count) as u32,
        4 if count > 1 => words[2] = random.between(2, count) as u32,
        5 if !used.is_empty() => {
            let link = random.pick(&used);
            words[link] = elsewhere(random, link / RECORD, words[link] as usize, count);
        }
        6 | 7 if !used.is_empty() => {
            let link = random.pick(&used);
            close_circle(random, words, link);
        }
        _ => words[link] = own as u32,
    }
}

/// Takes the record that a link names away from there and lets it be named
/// by itself or by a record that it leads to; all are still named once.
fn close_circle(random: &mut Random, words: &mut [u32], link: usize) {
    let first = words[link];
    words[link] = 0;
    let mut at = first as usize;
    loop {
        let links = [RECORD * at + 2, RECORD * at + 3];
        let (free, used): (Vec<usize>, Vec<usize>) =
            links.into_iter().partition(|link| words[*link] == 0);
        if used.is_empty() || (!free.is_empty() && random.percent(50)) {
            words[random.pick(&free)] = first;
            return;
        }
        at = words[random.pick(&used)] as usize;
    }
}

/// A record after `own` other than `old`, or none if there is no other.
fn elsewhere(random: &mut Random, own: usize, old: usize, count: usize) -> u32 {
    let others: Vec<usize> = (own + 1..=count).filter(|index| *index != old).collect();
    match others.len() {
        0 => 0,
        _ => random.pick(&others) as u32,
    }
}

/// Words that are no whole term, most of them for one reason only, and at
/// most `most` of them.
pub fn faulty_words(random: &mut Random, most: usize) -> Vec<u32> {
    loop {
        let forest = match random.below(9) {
            0 => {
                let numeral = node(kind::NUMERAL, large_numeral(random), Vec::new());
                vec![planted(random, &numeral, most.min(20))]
            }
            1 | 2 => faulty_forest(random, &[Refusal::FreeNumber], most.min(20)),
            8 => {
                let fault = random.pick(&default::FAULTS);
                vec![planted_default(random, fault, most)]
            }
            _ => faulty_forest(random, &[Refusal::Structure], most.min(20)),
        };
        let words: Vec<u32> = forest.iter().flat_map(node_words).collect();
        if words.len() <= most {
            return words;
        }
    }
}

/// The words of a tree in prefix order, with the counts that it has.
fn node_words(node: &Node) -> Vec<u32> {
    let count = node.children.len() as u32;
    let payload = match node.kind {
        kind::CONSTRUCTOR => node.value * COUNTS + count,
        kind::CASE => count.saturating_sub(1),
        _ => node.value,
    };
    let parts = node.children.iter().flat_map(node_words);
    std::iter::once(word(node.kind, payload))
        .chain(parts)
        .collect()
}

/// A numeral's word with a payload above the limit.
pub fn wrong_numeral(random: &mut Random) -> u32 {
    word(kind::NUMERAL, large_numeral(random))
}

/// A word in place of one of a term's, which breaks a rule or at least makes
/// another term.
pub fn changed_word(random: &mut Random, old: u32) -> u32 {
    // Only the low bits, so that sums stay words after several changes.
    let word = old % (1 << 30);
    let unit = 8 * COUNTS;
    let tags = [word % unit, word % unit + 256 * unit, word + 256 * unit];
    let tag = random.pick(&tags);
    let wrong = match word % 8 {
        kind::VARIABLE => random.pick(&[word + 8 * 256, u32::MAX - 7, 5 + unit, 3 + unit]),
        kind::ABSTRACTION | kind::APPLICATION => random.pick(&[word + 8, word + unit, 0, word ^ 3]),
        kind::CONSTRUCTOR => random.pick(&[tag, tag, word + 8, word + 2]),
        kind::CASE => {
            let many = kind::CASE + 8 * (MOST_BRANCHES as u32 + 1);
            random.pick(&[word + 8, word + unit, many, word + 1])
        }
        kind::NUMERAL => wrong_numeral(random),
        _ => random.pick(&[tag, tag, tag, 15 * unit + 5, 5 + unit, 0]),
    };
    // The same payload as a numeral, or of a kind that there is not.
    let other = word - word % 8 + random.pick(&[kind::NUMERAL, 7]);
    random.pick(&[wrong, wrong, wrong, other])
}
