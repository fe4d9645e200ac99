//! Wrong readers of text and wrong transcripts are told from the right ones.

use readers::{compare, text_words, TextReader};
use reference::{on_large_stack, replay};

const CASES: u64 = 3_000;
const SEED: u64 = 5;

fn right(script: &[u8]) -> Result<String, String> {
    Ok(replay::run(script).text)
}

#[test]
fn the_right_readers_agree() {
    let counts = on_large_stack(|| compare(CASES, SEED, text_words, right)).expect("no difference");
    assert_eq!(counts.too_few(), None);
    let total = counts.accepted + counts.free_number + counts.no_term + counts.outside;
    assert_eq!(total as u64, CASES);
}

/// Reads another text instead, or gives other words.
const WRONG_READERS: [(&str, TextReader); 12] = [
    ("takes a leading zero", |text| {
        let places = text.split(' ').map(|part| match part.strip_prefix('0') {
            Some(rest) if rest.starts_with(|next: char| next.is_ascii_digit()) => rest,
            _ => part,
        });
        text_words(&places.collect::<Vec<_>>().join(" "))
    }),
    ("takes 32768 for the largest index", |text| {
        text_words(&text.replace("32768", "32767"))
    }),
    ("refuses the largest index", |text| {
        text_words(&text.replace("32767", "32768"))
    }),
    ("needs no space between parentheses", |text| {
        text_words(&text.replace(")(", ") ("))
    }),
    ("needs no space before an abstraction", |text| {
        text_words(&text.replace("0\\", "0 \\"))
    }),
    ("closes what is left open", |text| {
        text_words(text).or_else(|| text_words(&format!("{text})")))
    }),
    ("goes over what is closed too often", |text| {
        text_words(text).or_else(|| text_words(text.strip_suffix(')')?))
    }),
    ("takes empty parentheses for an index", |text| {
        text_words(&text.replace("()", "0"))
    }),
    ("refuses long lines", |text| match text.len() {
        1_024 => None,
        _ => text_words(text),
    }),
    ("refuses deep parentheses", |text| {
        match text.contains(&"(".repeat(100)) {
            true => None,
            false => text_words(text),
        }
    }),
    ("groups to the right", |text| {
        // Two applications in front of an item: the second one goes behind it.
        let mut words = text_words(text)?;
        if let Some(at) = words
            .windows(3)
            .position(|part| part[..2] == [2, 2] && part[2] % 8 == 0)
        {
            words.swap(at + 1, at + 2);
        }
        Some(words)
    }),
    ("takes no free number above 255", |text| {
        text_words(text).filter(|words| words[0] % 8 != 0 || words[0] <= 8 * 255)
    }),
];

#[test]
fn wrong_readers_of_text_are_told() {
    for (mistake, read) in WRONG_READERS {
        let compared = on_large_stack(|| compare(CASES, SEED, read, right));
        let message = compared.expect_err(mistake);
        assert!(message.contains("difference in the line `"), "{message}");
    }
}

/// A change of a transcript.
type Change = fn(String) -> String;

const WRONG_TRANSCRIPTS: [(&str, Change); 9] = [
    ("another number", |text| {
        text.replace("refused 11\n", "refused 6\n")
    }),
    ("the other number", |text| {
        text.replace("refused 6\n", "refused 11\n")
    }),
    ("another length", |text| {
        text.replace("line 1\n", "line 2\n")
    }),
    ("a word left behind", |text| {
        text.replace(" 0\nscratch", " 8\nscratch")
    }),
    ("another index", |text| text.replace("left 8 ", "left 16 ")),
    ("sides changed", |text| {
        let text = text.replace("left", "l").replace("right", "left");
        text.replace("l ", "right ")
    }),
    ("a word too few", |text| {
        text.replace(" 0\nright", "\nright")
    }),
    ("the last rows are missing", |text| {
        let end = text.trim_end().rfind("\nright").unwrap_or(0);
        text[..end].to_string()
    }),
    ("a row too many", |text| text + "line 1\n"),
];

#[test]
fn wrong_transcripts_are_told() {
    for (mistake, change) in WRONG_TRANSCRIPTS {
        let wrong = |script: &[u8]| right(script).map(change);
        let compared = on_large_stack(|| compare(CASES, SEED, text_words, wrong));
        assert!(compared.is_err(), "{mistake}");
    }
    let compared = on_large_stack(|| {
        compare(CASES, SEED, text_words, |_| {
            Err("it cannot be run".to_string())
        })
    });
    let message = compared.expect_err("no transcript");
    assert_eq!(message, "from case 0 of seed 5 on: it cannot be run");
}
