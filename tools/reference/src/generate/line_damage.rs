//! Lines with chosen faults, and lines with a byte or two changed.

use crate::line::Fault;
use crate::random::Random;

/// What lines are made of.
const ALPHABET: &[u8] = b"0123456789\\()    ";

/// Bytes that no line has; the last ones are of the alphabet when cut to
/// seven bits.
const STRANGE: &[u8] = b"\t\n\r\0\x0b\x7f/:[]{}.,-+xal'\xff\xb0\xdc\xa8\xa0";

/// Short lines outside the grammar.
const SMALL: [&[u8]; 32] = [
    b" ", b"(", b")", b"\\", b"()", b")(", b"\\ 0", b"0\\0", b"(0)1", b"0(1)", b"(0)(1)", b"0 ",
    b" 0", b"0  1", b"( 0)", b"(0 )", b"(0", b"0)", b"((0)", b"(0))", b"00", b"01", b"0 ()",
    b"() 0", b"\\()", b"(\\)", b"0 \\", b"\\\\", b"(0)\\0", b"\\0\\0", b"0\n", b"-1",
];

/// A line of a few bytes, most often outside the grammar.
pub fn short(random: &mut Random) -> Vec<u8> {
    let length = random.between(1, 9);
    match random.percent(50) {
        true => random.pick(&SMALL).to_vec(),
        false => (0..length).map(|_| random.pick(ALPHABET)).collect(),
    }
}

/// The line with a change that most often makes the fault, which is any but
/// a wrong length.
pub fn with_fault(random: &mut Random, fault: Fault, line: Vec<u8>) -> Vec<u8> {
    if random.percent(30) {
        return damaged(random, line);
    }
    let changes: &[Change] = match fault {
        Fault::Byte => &[
            strange_in_place,
            strange_between,
            strange_space,
            strange_end,
            strange_bit,
        ],
        Fault::Number => &[wrong_number],
        Fault::Space => &[
            space_at_edge,
            space_between,
            space_inside,
            space_twice,
            space_away,
        ],
        Fault::Parenthesis => &[parenthesis_between, parenthesis_away],
        _ => &[item_away],
    };
    random.pick(changes)(random, line)
}

/// A change of a line that has a byte at least.
type Change = fn(&mut Random, Vec<u8>) -> Vec<u8>;

const CHANGES: [Change; 19] = [
    byte_away,
    byte_twice,
    other_byte,
    bytes_swapped,
    strange_in_place,
    strange_between,
    strange_space,
    strange_end,
    strange_end,
    strange_bit,
    space_at_edge,
    space_between,
    space_inside,
    space_twice,
    space_away,
    parenthesis_between,
    parenthesis_away,
    item_away,
    wrong_number,
];

/// A line with one change or two.
pub fn damaged(random: &mut Random, mut line: Vec<u8>) -> Vec<u8> {
    for _ in 0..random.pick(&[1, 1, 1, 2]) {
        if !line.is_empty() {
            line = random.pick(&CHANGES)(random, line);
        }
    }
    line
}

fn byte_away(random: &mut Random, mut line: Vec<u8>) -> Vec<u8> {
    line.remove(random.below(line.len()));
    line
}

fn byte_twice(random: &mut Random, mut line: Vec<u8>) -> Vec<u8> {
    let at = random.below(line.len());
    line.insert(at, line[at]);
    line
}

fn other_byte(random: &mut Random, mut line: Vec<u8>) -> Vec<u8> {
    let at = random.below(line.len());
    line[at] = random.pick(ALPHABET);
    line
}

fn bytes_swapped(random: &mut Random, mut line: Vec<u8>) -> Vec<u8> {
    let at = random.below(line.len());
    line.swap(at.saturating_sub(1), at);
    line
}

fn strange_in_place(random: &mut Random, mut line: Vec<u8>) -> Vec<u8> {
    let at = random.below(line.len());
    line[at] = random.pick(STRANGE);
    line
}

fn strange_between(random: &mut Random, mut line: Vec<u8>) -> Vec<u8> {
    let at = random.below(line.len());
    line.insert(random.pick(&[at, 0, line.len()]), random.pick(STRANGE));
    line
}

/// Another byte in place of a space.
fn strange_space(random: &mut Random, mut line: Vec<u8>) -> Vec<u8> {
    let places = places(&line, b" ");
    if !places.is_empty() {
        line[random.pick(&places)] = random.pick(b"\t\t\t\n\0\xff");
    }
    line
}

/// An end as of text in other places.
fn strange_end(random: &mut Random, mut line: Vec<u8>) -> Vec<u8> {
    let end: &[u8] = random.pick(&[
        b"\n".as_slice(),
        b"\n",
        b"\n",
        b"\n",
        b"\r\n",
        b"\r\n",
        b"\0",
        b"\0",
        b"\0)",
        b"\xff",
    ]);
    line.extend(end);
    line
}

/// A byte that is of the alphabet when cut to seven bits.
fn strange_bit(random: &mut Random, mut line: Vec<u8>) -> Vec<u8> {
    let at = random.below(line.len());
    line[at] |= 0x80;
    line
}

fn space_at_edge(random: &mut Random, mut line: Vec<u8>) -> Vec<u8> {
    line.insert(random.pick(&[0, line.len()]), b' ');
    line
}

fn space_between(random: &mut Random, mut line: Vec<u8>) -> Vec<u8> {
    line.insert(random.below(line.len()), b' ');
    line
}

/// A space behind a backslash or an open parenthesis, or before a closed one.
fn space_inside(random: &mut Random, mut line: Vec<u8>) -> Vec<u8> {
    let (of, behind): (&[u8], usize) = random.pick(&[(b"\\", 1), (b"(", 1), (b")", 0)]);
    let places = places(&line, of);
    if !places.is_empty() {
        line.insert(random.pick(&places) + behind, b' ');
    } else if of != b"\\" {
        let (open, close): (&[u8], &[u8]) = random.pick(&[(b"( ", b")"), (b"(", b" )")]);
        line = [open, &line, close].concat();
    }
    line
}

fn space_twice(random: &mut Random, mut line: Vec<u8>) -> Vec<u8> {
    let places = places(&line, b" ");
    if !places.is_empty() {
        line.insert(random.pick(&places), b' ');
    }
    line
}

fn space_away(random: &mut Random, mut line: Vec<u8>) -> Vec<u8> {
    // Behind or before a parenthesis, or before an abstraction, no number grows.
    let apart = |at: &usize| line[at - 1] == b')' || b"(\\".contains(&line[at + 1]);
    let inner = places(&line, b" ").into_iter();
    let inner: Vec<usize> = inner
        .filter(|at| *at > 0 && at + 1 < line.len())
        .filter(apart)
        .collect();
    if !inner.is_empty() {
        line.remove(random.pick(&inner));
    }
    line
}

fn parenthesis_between(random: &mut Random, mut line: Vec<u8>) -> Vec<u8> {
    let at = random.below(line.len());
    line.insert(random.pick(&[at, 0, line.len()]), random.pick(b"()"));
    line
}

fn parenthesis_away(random: &mut Random, mut line: Vec<u8>) -> Vec<u8> {
    let places = places(&line, b"()");
    if !places.is_empty() {
        line.remove(random.pick(&places));
    }
    line
}

/// Nothing in place of an index, or nothing in parentheses.
fn item_away(random: &mut Random, mut line: Vec<u8>) -> Vec<u8> {
    if let Some((start, end)) = any_index(random, &line) {
        let new: &[u8] = random.pick(&[b"".as_slice(), b"()", b"\\", b"(\\)"]);
        line.splice(start..end, new.iter().copied());
    }
    line
}

/// A wrong number in place of an index, now and then the largest index.
fn wrong_number(random: &mut Random, mut line: Vec<u8>) -> Vec<u8> {
    let Some((start, end)) = any_index(random, &line) else {
        return line;
    };
    let digits = line[start..end].to_vec();
    let zeros = random.pick(&[1, 1, 2, 5, 30]);
    let many = random.between(6, 60);
    let new = match random.below(10) {
        0..=2 => [vec![b'0'; zeros], digits].concat(),
        3..=6 => random.pick(&LARGE).as_bytes().to_vec(),
        7 => vec![random.pick(b"19"); many],
        8 => [digits, vec![b'0'; 5]].concat(),
        _ => b"32767".to_vec(),
    };
    line.splice(start..end, new);
    line
}

/// The places of bytes that are among the given ones.
fn places(line: &[u8], of: &[u8]) -> Vec<usize> {
    (0..line.len())
        .filter(|at| of.contains(&line[*at]))
        .collect()
}

/// Numbers above the limit of an index; the last ones fall back below it when
/// cut to fewer bits.
const LARGE: [&str; 13] = [
    "32768",
    "32768",
    "32769",
    "99999",
    "100000",
    "65535",
    "65536",
    "65536",
    "65537",
    "4294967296",
    "4294967297",
    "18446744073709551616",
    "18446744073709551617",
];

/// Where an index of the line begins and ends, if it has one.
fn any_index(random: &mut Random, line: &[u8]) -> Option<(usize, usize)> {
    let is_digit = |at: usize| line.get(at).is_some_and(u8::is_ascii_digit);
    let starts: Vec<usize> = (0..line.len())
        .filter(|at| is_digit(*at) && (*at == 0 || !is_digit(at - 1)))
        .collect();
    if starts.is_empty() {
        return None;
    }
    let start = random.pick(&starts);
    let digits = line[start..]
        .iter()
        .take_while(|byte| byte.is_ascii_digit());
    Some((start, start + digits.count()))
}
