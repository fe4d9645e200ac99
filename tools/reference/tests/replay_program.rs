//! The replaying program on whole scripts; expectations follow from its
//! table of operations and from the rules.

mod common;

use common::{numbers, rows, table};
use reference::input::bytes;
use reference::replay::run;

/// 2,2,1,1,8,0,8 in prefix order.
const K_F0_F1: [[u32; 4]; 7] = [
    [2, 0, 2, 0],
    [2, 0, 3, 7],
    [1, 0, 4, 6],
    [1, 0, 5, 0],
    [0, 1, 0, 0],
    [0, 0, 0, 0],
    [0, 1, 0, 0],
];

fn text(words: &[&[u32]]) -> String {
    run(&bytes(&words.concat())).text
}

fn load(side: u32, records: &[[u32; 4]]) -> Vec<u32> {
    let table = table(records);
    [&[1, side, table.len() as u32][..], &table].concat()
}

/// A word and then `count` times another.
fn row(head: &str, words: &[u32], count: usize, filling: &str) -> String {
    let words: Vec<String> = words.iter().map(u32::to_string).collect();
    let parts = words.into_iter().chain(vec![filling.to_string(); count]);
    let line: Vec<String> = std::iter::once(head.to_string()).chain(parts).collect();
    line.join(" ") + "\n"
}

#[test]
fn a_run_with_every_operation() {
    let printed = text(&[
        &[16, 16],
        &load(0, &K_F0_F1),
        &typed(1, b"0"),
        &[6, 1, 9, 55],    // a word behind the right term
        &[2, 16, 7, 1, 1], // one contraction
        &[3, 4, 1],        // the right form is shorter
        &[4, 0, 4, 20],    // 2,1,8,8 as a table of four records
        &[2, 16, 7, 1, 1], // the old length
        &[2, 16, 4, 1, 1], // the second contraction
        &[7],
    ]);
    let expected = [
        "load 7\nline 1\nstore\nBudget 1 4 1 0\nshow 1 0\n",
        // Header; application; abstraction; its body f0; the argument f1.
        "write 4 1 4 1 0 2 0 2 0 1 0 3 4 0 1 0 0 0 1 0 0\n",
        "refused 10\nSame 1 1 1 0\n",
        &row("left", &[], 16, "0"),
        &row("right", &[], 16, "0"),
        &row("scratch", &[], 16, "0"),
        "session 2 1 1 Same\n",
    ];
    assert_eq!(printed, expected.concat());
}

#[test]
fn at_first_all_is_zero_and_the_session_fresh() {
    let expected = [
        row("left", &[], 3, "0"),
        row("right", &[], 2_049, "0"),
        "scratch\n".to_string(),
        "session 0 0 0 Budget\n".to_string(),
    ];
    assert_eq!(text(&[&[3, u32::MAX, 7]]), expected.concat());
    assert_eq!(text(&[&[0, 2_049]]), "");
}

#[test]
fn a_refused_press_keeps_words_and_session() {
    let printed = text(&[
        &[16, 16],
        &[5, 999_999_999, 8, 9, 3],
        &[6, 0, 0, 8],
        &[6, 0, 1, 44],
        &[2, 16, 1, 1, 2], // with the total too much
        &[7],
        &[2, 16, 1, 1, 1],
        &[7],
    ]);
    let refused = [
        "session\nstore\nstore\nrefused 9\n",
        &row("left", &[8, 44], 14, "0"),
        &row("right", &[], 16, "0"),
        &row("scratch", &[], 16, "7"),
        "session 999999999 8 9 Full\n",
    ];
    // f1 against f0; nothing is spent.
    let unrefused = [
        "Different 0 1 1 0\n",
        &row("left", &[8], 15, "0"),
        &row("right", &[], 16, "0"),
        &row("scratch", &[], 16, "0"),
        "session 999999999 1 1 Different\n",
    ];
    assert_eq!(printed, refused.concat() + &unrefused.concat());
}

#[test]
fn the_position_ends_the_line_of_every_press() {
    // 1(f0, f1) against 1(f0, f2): words 147,0,8 and 147,0,16.
    let left: [u32; 12] = [6, 0, 0, 147, 6, 0, 1, 0, 6, 0, 2, 8];
    let right: [u32; 12] = [6, 1, 0, 147, 6, 1, 1, 0, 6, 1, 2, 16];
    let printed = text(&[
        &[16, 16],
        &left,
        &right,
        &[2, 16, 3, 3, 0],
        &[2, 16, 3, 3, 9],         // the same again
        &[2, 16, 3, 3, 1_000_001], // a refused press
        &[6, 1, 2, 62],            // numeral 7, which has 17 words
        &[2, 16, 3, 3, 0],
        &[2, 16, 3, 3, 1],
        &[6, 1, 2, 8], // the left term
        &[2, 16, 3, 3, 0],
        &[6, 1, 1, 8], // 1(f1, f1)
        &[2, 16, 3, 3, 0],
    ]);
    let expected = [
        &"store\n".repeat(6),
        "Different 0 3 3 2\nDifferent 0 3 3 2\nrefused 9\nstore\n",
        "Budget 0 3 3 0\nFull 0 3 3 0\nstore\n",
        "Same 0 3 3 0\nstore\nDifferent 0 3 3 1\n",
    ];
    assert_eq!(printed, expected.concat());
}

/// A line for a side.
fn typed(side: u32, line: &[u8]) -> Vec<u32> {
    let bytes = line.iter().map(|byte| u32::from(*byte));
    let head = [8, side, line.len() as u32];
    head.into_iter().chain(bytes).collect()
}

#[test]
fn lines_bring_terms_in() {
    let printed = text(&[
        &[16, 16],
        &[6, 0, 9, 55],
        &[6, 1, 9, 66],
        &typed(0, b"(\\\\1) 0 1"), // 2,2,1,1,8,0,8
        &typed(1, b"256"),
        &typed(1, b"0 "),
        &typed(1, b""),
        &typed(1, &[b'\\'; 16]),
        &[7],
        &typed(1, b"0 0 0 0 0 0 0 0 0"), // 17 words
        &typed(1, b"0"),
        &[2, 16, 7, 1, 2],
        &typed(0, b"0 1"), // over 0 and zeros
        &[3, 3, 1],
        &typed(0, b"2"),
        &[7],
    ]);
    let expected = [
        "store\nstore\nline 7\nrefused 6\nrefused 11\nrefused 11\nrefused 11\n",
        // Zeros after the term on the left, the right as it was.
        &row("left", &[2, 2, 1, 1, 8, 0, 8], 9, "0"),
        &row("right", &[0, 0, 0, 0, 0, 0, 0, 0, 0, 66], 6, "0"),
        "scratch\nsession 0 0 0 Budget\n",
        "refused 8\nline 1\nSame 2 1 1 0\nline 3\nshow 1 0\nline 1\n",
        &row("left", &[16], 15, "0"),
        &row("right", &[], 16, "0"),
        &row("scratch", &[], 16, "0"),
        // A line is none of the session's business.
        "session 2 1 1 Same\n",
    ];
    assert_eq!(printed, expected.concat());
}

/// An encoding for a side.
fn encoding(side: u32, count: u32, bytes: &[u8]) -> Vec<u32> {
    let words = bytes.iter().map(|byte| u32::from(*byte));
    let head = [9, side, count, bytes.len() as u32];
    head.into_iter().chain(words).collect()
}

#[test]
fn encodings_bring_terms_in_and_carry_them_out() {
    let printed = text(&[
        &[16, 16],
        &[6, 0, 9, 55],
        &[6, 1, 9, 66],
        &encoding(0, 7, &[12]), // 0000110 is 1,1,8
        &encoding(1, 7, &[13]), // the padding
        &encoding(1, 6, &[12]), // the run does not end
        &encoding(1, 8, &[12]), // a bit is left over
        &encoding(1, 9, &[12]), // a bit that is not lent
        &encoding(1, 5, &[48]), // 00110 is \ f0
        &[7],
        &encoding(1, 34, &[0, 0, 0, 0, 128]), // 17 words
        &encoding(1, 4, &[32, 0, 0]),         // 0010 is 1,0
        &[10, 1, 2, 3],
        &[10, 1, 2, 1],
        &[10, 1, 2, 0],
        &[10, 1, 3, 2], // \ 0 and one word more
        &[10, 0, 3, 1],
        &[2, 16, 3, 2, 0],
        &encoding(1, 7, &[12]),
        &[2, 16, 3, 3, 0],
        &[7],
    ]);
    let expected = [
        "store\nstore\nimport 3\nrefused 12\nrefused 12\nrefused 12\nrefused 12\nrefused 13\n",
        // Zeros after the term on the left, the right as it was.
        &row("left", &[1, 1, 8], 13, "0"),
        &row("right", &[0, 0, 0, 0, 0, 0, 0, 0, 0, 66], 6, "0"),
        "scratch\nsession 0 0 0 Budget\n",
        "refused 8\nimport 2\nexport 4 32 0 0\nexport 4 32\nrefused 8\nrefused 10 7 7\n",
        "export 7 12\nDifferent 0 3 2 1\nimport 3\nSame 0 3 3 0\n",
        &row("left", &[1, 1, 8], 13, "0"),
        &row("right", &[1, 1, 8], 13, "0"),
        &row("scratch", &[], 16, "0"),
        // An encoding is none of the session's business.
        "session 0 3 3 Same\n",
    ];
    assert_eq!(printed, expected.concat());
}

/// The words of scripts, and the lines that are printed for them.
const SCRIPTS: &str = "
    # Showing: f1 on the left, f0 on the right, which is shown at equal lengths; beside \\ 0
    # the left one is shorter; refused it is the empty start of the left.
    16,16; 6,0,0,8; 3,1,1 > store; show 1 0
    16,16; 6,0,0,8; 6,1,0,1; 3,1,2 > store; store; show 0 8
    16,16; 6,0,0,8; 3,1,2 > store; show 0
    16,16; 6,0,0,8; 3,0,1 > store; show 0
    16,17; 3,1,1 > show 0
    # Writing prints the whole table; an empty workspace holds f0 as its first word.
    16,15; 4,0,1,8 > write 1 1 1 1 0 0 0 0 0
    16,15; 4,0,1,3 > refused 1 7 7 7
    16,15; 4,0,2,2 > refused 10 7 7
    16,15; 4,0,1,0 > refused 1
    16,15; 4,1,1,1 > refused 7 7
    16,15; 4,0,1,8197 > Script
    # Exporting prints all bytes; f0 is not closed, \\ 0 is 0010.
    16,15; 10,0,1,3 > refused 13 7 7 7
    16,15; 10,0,1,0 > refused 13
    16,15; 10,0,0,2 > refused 10 7 7
    16,15; 10,1,1,1 > refused 7 7
    16,16; 6,0,0,1; 10,0,2,3 > store; export 4 32 0 0
    16,16; 10,0,2,8197 > Script
    # The longest scratch is lent and refused, a longer one is not lent; 7s are in it.
    16,16; 2,8196,1,1,0 > refused 7
    16,16; 2,8197,1,1,0 > Script
    1,1; 2,3,1,1,0; 7 > refused 7; left 0; right 0; scratch 7 7 7; session 0 0 0 Budget
    # Each side is loaded, typed and imported by its own length.
    15,16; 1,0,8,1,1,1,0,0,0,0,0; 1,1,8,1,1,1,0,0,0,0,0 > refused 7; load 1
    16,16; 1,0,0 > refused 1
    15,16; 8,0,1,48; 8,1,1,48 > refused 7; line 1
    16,2049; 8,1,2,40,41 > refused 7
    15,16; 9,0,4,1,32; 9,1,4,1,32 > refused 7; import 2
    16,2049; 9,1,9,0 > refused 7
    # Words of lines and encodings are bytes; cut to eight bits 304 would be a line and 288
    # an encoding. A byte that is none comes before a wrong workspace.
    16,16; 8,0,1,255 > refused 11
    16,16; 8,0,1,256 > Script
    16,16; 8,0,1,304 > Script
    16,16; 8,0,3,48,32,4294967295 > Script
    0,0; 8,0,1,256 > Script
    0,0; 8,0,0 > refused 7
    16,16; 9,0,0,0 > refused 12
    16,16; 9,0,4294967295,0 > refused 12
    16,16; 9,0,4,1,255 > refused 12
    16,16; 9,0,4,1,256 > Script
    16,16; 9,0,4,1,288 > Script
    16,16; 9,0,4,2,32,4294967295 > Script
    0,0; 9,0,4,1,256 > Script
    0,0; 9,0,4,0 > refused 7
    # Verdicts of a set session.
    0,0; 5,1,2,4294967295,0; 7 > session; left; right; scratch; session 1 2 4294967295 Same
    0,0; 5,1,2,3,1; 7 > session; left; right; scratch; session 1 2 3 Different
    0,0; 5,1,2,3,2; 7 > session; left; right; scratch; session 1 2 3 Budget
    0,0; 5,1,2,3,3; 7 > session; left; right; scratch; session 1 2 3 Full
    0,0; 5,1,2,3,4 > Script
    # Storing outside does nothing.
    2,1; 6,0,1,9; 6,0,2,9; 6,1,1,9; 7 > store; store; store; left 0 9; right 0; scratch; session 0 0 0 Budget
    # A broken operation ends the run; nothing after it is done.
    16,16; 11; 6,0,0,8 > Script
    16,16; 6,0,0,8; 0 > store; Script
    16,16; 4294967295 > Script
    16,16; 1 > Script
    16,16; 1,2,0 > Script
    16,16; 1,0,4,1,1,1 > Script
    16,16; 1,0,8197 > Script
    16,16; 2,16,1,1 > Script
    16,16; 3,1 > Script
    16,16; 4,2,1,8 > Script
    16,16; 4,0,1 > Script
    16,16; 5,1,1,1 > Script
    16,16; 6,2,0,0 > Script
    16,16; 6,0,0 > Script
    16,16; 8,0 > Script
    16,16; 8,2,1,48 > Script
    16,16; 8,0,2,48 > Script
    16,16; 8,0,8197 > Script
    16,16; 9,0,4 > Script
    16,16; 9,2,4,1,32 > Script
    16,16; 9,0,4,2,32 > Script
    16,16; 9,0,4,8197 > Script
    16,16; 10,0,1 > Script
    16,16; 10,2,1,1 > Script
";

#[test]
fn short_scripts() {
    for row in rows(SCRIPTS) {
        let (script, printed) = row.split_once(" > ").expect("what is printed");
        let words: Vec<u32> = script.split(';').flat_map(numbers).collect();
        let printed = printed.replace("; ", "\n") + "\n";
        assert_eq!(text(&[&words]), printed, "{row}");
    }
}

#[test]
fn the_longest_parts_are_lent() {
    let start = [16, 16];
    assert_eq!(text(&[&start, &typed(0, &[b'0'; 8_196])]), "refused 11\n");
    assert_eq!(text(&[&start, &typed(0, &[b'0'; 8_197])]), "Script\n");
    let zeros = |count: usize| encoding(0, 4, &[&[32][..], &vec![0; count - 1]].concat());
    assert_eq!(text(&[&start, &zeros(8_196)]), "import 2\n");
    assert_eq!(text(&[&start, &zeros(8_197)]), "Script\n");
    let written = text(&[&start, &[4, 0, 1, 8_196]]);
    assert_eq!(written, row("refused", &[1], 8_196, "7"));
    let exported = text(&[&start, &[6, 0, 0, 1, 10, 0, 2, 8_196]]);
    assert_eq!(
        exported,
        "store\n".to_string() + &row("export", &[4, 32], 8_195, "0")
    );
}

#[test]
fn missing_words_and_bytes() {
    for length in 0..8 {
        let script = &bytes(&[16, 16])[..length];
        assert_eq!(run(script).text, "Script\n", "{length}");
    }
    let mut script = bytes(&[16, 16, 6, 0, 0, 8]);
    script.push(7);
    assert_eq!(run(&script).text, "store\nScript\n");
}

#[test]
fn long_scripts_are_done_to_their_end() {
    // Two lengths, 100,000 stores of four words and a show of three.
    let stores = [6, 0, 99, 0].repeat(100_000);
    let mut script = [&[16, 16][..], &stores, &[3, 0, 0]].concat();
    let printed = "store\n".repeat(100_000) + "show 0\n";
    assert_eq!(run(&bytes(&script)).text, printed);
    script.push(8);
    assert_eq!(run(&bytes(&script)).text, printed + "Script\n");
}
