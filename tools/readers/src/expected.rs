//! What the unit has to answer to a line, told from the text command's reader.

use unit::limits::MAX_FREE;
use unit::word::{kind, payload, ABSTRACTION, APPLICATION, VARIABLE};
use unit::Term;

/// The bytes of the longest line.
const LONGEST: usize = 1_024;

/// The words of a text's term, if it has one.
pub type TextReader = fn(&str) -> Option<Vec<u32>>;

/// The text command's reader.
pub fn text_words(text: &str) -> Option<Vec<u32>> {
    let term: Term = text.parse().ok()?;
    term.words().ok()
}

/// Whether a line is in the notation that lines and texts have in common: it has 1 to 1,024 bytes, all
/// of them digits, backslashes, parentheses and spaces, and each space stands right behind a digit or
/// `)` and right before a digit, `(` or `\`.
///
/// Texts have more: any length, blanks in other places, several in a row, tabs and line ends, and
/// constructors, case and numerals; a line with one of these is refused by 11. All else is the same:
/// neither has leading zeros or an index above 32,767, and both need a space between two items. A free
/// number above 255 is part of both; reading a text leaves it to the program, while reading a line
/// refuses it by 6.
pub fn is_common(line: &[u8]) -> bool {
    let is_behind = |byte: u8| byte.is_ascii_digit() || byte == b')';
    let is_before = |byte: u8| byte.is_ascii_digit() || byte == b'(' || byte == b'\\';
    let byte = |at: usize| line.get(at).copied();
    let fits = |at: usize| match line[at] {
        b'0'..=b'9' | b'\\' | b'(' | b')' => true,
        b' ' if at > 0 => is_behind(line[at - 1]) && byte(at + 1).is_some_and(is_before),
        _ => false,
    };
    (1..=LONGEST).contains(&line.len()) && (0..line.len()).all(fits)
}

/// What the unit has to answer to a line for a workspace with room for every line's term.
#[derive(Clone, Debug, PartialEq, Eq)]
pub enum Expected {
    /// The words of the term.
    Accepted(Vec<u32>),
    /// Refused by 6.
    FreeNumber,
    /// Refused by 11, in the common notation.
    NoTerm,
    /// Refused by 11, outside the common notation.
    Outside,
}

impl Expected {
    pub fn of(line: &[u8], read: TextReader) -> Expected {
        let text = std::str::from_utf8(line).ok();
        let Some(text) = text.filter(|_| is_common(line)) else {
            return Expected::Outside;
        };
        match read(text) {
            None => Expected::NoTerm,
            Some(words) if has_large_free(&words) => Expected::FreeNumber,
            Some(words) => Expected::Accepted(words),
        }
    }

    /// What `replay` prints of the call.
    pub fn printed(&self) -> String {
        match self {
            Expected::Accepted(words) => format!("line {}", words.len()),
            Expected::FreeNumber => "refused 6".to_string(),
            Expected::NoTerm | Expected::Outside => "refused 11".to_string(),
        }
    }
}

/// Whether a free number of a term of variables, abstractions and applications is above its limit.
fn has_large_free(words: &[u32]) -> bool {
    // The abstractions around each term that is still to come, the next one last.
    let mut around = vec![0];
    words.iter().any(|&word| {
        let binders = around.pop().unwrap_or(0);
        match kind(word) {
            ABSTRACTION => around.push(binders + 1),
            APPLICATION => around.extend([binders, binders]),
            _ => {}
        }
        kind(word) == VARIABLE && payload(word) > binders + MAX_FREE
    })
}

#[cfg(test)]
mod tests {
    use super::*;

    #[test]
    fn the_common_notation() {
        let longest = "0".repeat(LONGEST);
        for line in [
            "0", "90", "\\0 1", "0 (1)", "(0) 1", "(0) (1)", "0 \\0", "(0) \\0", &longest,
            // These are no term for either reader.
            "00", "32768", "(", ")(", "()", "\\", "(0)(1)", "0\\0", "(0",
        ] {
            assert!(is_common(line.as_bytes()), "{line}");
        }
    }

    #[test]
    fn outside_the_common_notation() {
        let too_long = "0".repeat(LONGEST + 1);
        for line in [
            "", " ", " 0", "0 ", "0  1", "( 0)", "(0 )", "\\ 0", "0 )", "( (0))", "\\0 ", "0\t1",
            "0\n", "\n", "0,1", "#1", "%2", "?0{}", "λ0", "-1", &too_long,
        ] {
            assert!(!is_common(line.as_bytes()), "{line}");
        }
        assert!(!is_common(b"\xb0"));
        assert!(!is_common(b"0\x001"));
    }

    #[test]
    fn what_the_unit_has_to_answer() {
        let expected = |line: &str| Expected::of(line.as_bytes(), text_words);
        // An application of the indices 0 and 1 below an abstraction.
        assert_eq!(expected("\\0 1"), Expected::Accepted(vec![1, 2, 0, 8]));
        assert_eq!(expected("255"), Expected::Accepted(vec![8 * 255]));
        assert_eq!(expected("256"), Expected::FreeNumber);
        assert_eq!(expected("\\256"), Expected::Accepted(vec![1, 8 * 256]));
        assert_eq!(expected("(\\0) 256"), Expected::FreeNumber);
        assert_eq!(expected("(\\\\0) \\257"), Expected::FreeNumber);
        assert_eq!(expected("32767"), Expected::FreeNumber);
        assert_eq!(expected("32768"), Expected::NoTerm);
        assert_eq!(expected("00"), Expected::NoTerm);
        assert_eq!(expected("0(1)"), Expected::NoTerm);
        assert_eq!(expected("0  1"), Expected::Outside);
        assert_eq!(expected("#1"), Expected::Outside);
    }
}
