//! Text on a terminal, and the place of an error in it.

use std::ops::Range;

use unit::characters::{is_format, is_mark, is_right_to_left, width};

/// Columns of a terminal shown on either side of the place.
const AROUND: usize = 60;
const CUT: &str = "..";

/// Makes a terminal that knows of directions write a line from left to right.
const LEFT_TO_RIGHT: char = '\u{200e}';
/// Around a word they keep its direction to itself.
const ISOLATE: char = '\u{2068}';
const END_OF_ISOLATE: char = '\u{2069}';

/// The text around a column, counted in characters from 1, and below it a caret, in text of any script.
pub fn marked(text: &str, column: usize) -> String {
    let cells = Cells(text.chars().collect());
    let place = cells.start(column - 1);
    let (mut from, mut before) = (place, 0);
    while from > 0 && before + cells.width(cells.start(from - 1)) <= AROUND {
        from = cells.start(from - 1);
        before += cells.width(from);
    }
    let (mut to, mut behind) = (cells.end(place), 0);
    while to < cells.0.len() && behind + cells.width(to) <= AROUND {
        behind += cells.width(to);
        to = cells.end(to);
    }
    let start = if from > 0 { CUT } else { "" };
    let rest = if to < cells.0.len() { CUT } else { "" };
    let part = cells.text(from..to);
    let caret = start.len() + before + 1;
    format!("    {start}{part}{rest}\n    {:>caret$}", '^')
}

/// A text as it is shown on one line: every character in its own place.
pub fn shown(text: &str) -> String {
    let cells = Cells(text.chars().collect());
    cells.text(0..cells.0.len())
}

/// The columns of a terminal that a text takes as it is shown.
pub fn columns(text: &str) -> usize {
    let cells = Cells(text.chars().collect());
    let places = 0..cells.0.len();
    let starts = places.filter(|&place| !cells.is_drawn_on_the_one_before(place));
    starts.map(|start| cells.width(start)).sum()
}

/// The line of a text that a column lies on, which is counted in characters of the whole text: the
/// number of the line, the column on it, both from 1, and the line.
pub fn line_of(text: &str, column: usize) -> (usize, usize, &str) {
    let mut column = column;
    let mut lines = (1..).zip(text.split('\n')).peekable();
    while let Some((number, line)) = lines.next() {
        let length = line.chars().count();
        if column <= length + 1 || lines.peek().is_none() {
            return (number, column, line);
        }
        column -= length + 1;
    }
    unreachable!("every text has a last line")
}

/// The words of a text and what stands between them, and whether each has letters that run from right to
/// left.
pub fn words(text: &str) -> Vec<(&str, bool)> {
    let in_word = |character: char| {
        character.is_alphanumeric()
            || is_mark(character)
            || "_'\u{200c}\u{200d}".contains(character)
    };
    let mut parts = Vec::new();
    let mut rest = text;
    while let Some(first) = rest.chars().next() {
        let end = rest.find(|character| in_word(character) != in_word(first));
        let (part, after) = rest.split_at(end.unwrap_or(rest.len()));
        parts.push((part, part.contains(is_right_to_left)));
        rest = after;
    }
    parts
}

/// The characters of a text. A cell is a character and those drawn on it.
struct Cells(Vec<char>);

impl Cells {
    /// The characters of a range as they are shown, from left to right.
    fn text(&self, range: Range<usize>) -> String {
        let text: String = range.map(|position| self.shown(position)).collect();
        if !text.contains(is_right_to_left) {
            return text;
        }
        let mut line = LEFT_TO_RIGHT.to_string();
        for (word, is_turned) in words(&text) {
            match is_turned {
                true => line.extend([
                    ISOLATE.to_string(),
                    word.to_string(),
                    END_OF_ISOLATE.to_string(),
                ]),
                false => line.push_str(word),
            }
        }
        line
    }

    /// The first position of the cell around a position.
    fn start(&self, mut position: usize) -> usize {
        while self.is_drawn_on_the_one_before(position) {
            position -= 1;
        }
        position
    }

    /// The position behind the cell that starts at a position.
    fn end(&self, start: usize) -> usize {
        let mut end = self.0.len().min(start + 1);
        while self.is_drawn_on_the_one_before(end) {
            end += 1;
        }
        end
    }

    /// The columns of the cell that starts at a position.
    fn width(&self, start: usize) -> usize {
        width(self.shown(start))
    }

    /// The character as it is shown: what takes no place of its own, or an unknown one, would move the
    /// rest.
    fn shown(&self, position: usize) -> char {
        let character = self.0[position];
        let can_be_seen = character.is_ascii_graphic()
            || character.is_alphanumeric()
            || character.escape_debug().len() == 1;
        let is_shown = can_be_seen && width(character) > 0;
        match is_shown || self.is_drawn_on_the_one_before(position) {
            true => character,
            false => ' ',
        }
    }

    /// Whether the character is a mark, a part of a syllable, or a sign that joins or parts letters.
    fn is_drawn_on_the_one_before(&self, position: usize) -> bool {
        let Some(&character) = self.0.get(position) else {
            return false;
        };
        let Some(before) = position.checked_sub(1).map(|before| self.0[before]) else {
            return false;
        };
        match character {
            '\u{200c}' | '\u{200d}' => before.is_alphanumeric() || is_mark(before),
            _ => width(character) == 0 && !is_format(character),
        }
    }
}

#[cfg(test)]
mod tests {
    use super::marked;

    #[test]
    fn the_caret_stands_below_the_column() {
        assert_eq!(marked("0 (1", 5), "    0 (1\n        ^");
        assert_eq!(marked("", 1), "    \n    ^");
        assert_eq!(marked("0 λ0", 3), "    0 λ0\n      ^");
    }

    #[test]
    fn what_cannot_be_seen_is_shown_as_a_space() {
        assert_eq!(marked("0\t\n)", 4), "    0  )\n       ^");
        assert_eq!(marked("\u{feff}0", 1), "     0\n    ^");
        assert_eq!(marked("0 \u{202e}'", 3), "    0  '\n      ^");
    }

    #[test]
    fn a_long_text_is_cut_on_both_sides() {
        let text = format!("{}x{}", "a".repeat(100), "b".repeat(100));
        let (a, b) = ("a".repeat(60), "b".repeat(60));
        let caret = " ".repeat(62);
        assert_eq!(marked(&text, 101), format!("    ..{a}x{b}..\n    {caret}^"));
        // One character too many on either side is enough.
        let text = format!("a{a}x{b}b");
        assert_eq!(marked(&text, 62), format!("    ..{a}x{b}..\n    {caret}^"));
        let short = format!("{a}x{b}");
        assert_eq!(
            marked(&short, 61),
            format!("    {short}\n    {}^", " ".repeat(60))
        );
    }

    /// The caret's line, behind so many columns.
    fn below(shown: &str, columns: usize) -> String {
        format!("    {shown}\n    {}^", " ".repeat(columns))
    }

    #[test]
    fn wide_characters_take_two_columns() {
        assert_eq!(marked("变量 )", 4), below("变量 )", 5));
        assert_eq!(marked("变量 )", 2), below("变量 )", 2));
        assert_eq!(marked("🙂)", 2), below("🙂)", 2));
        assert_eq!(marked("한글)", 3), below("한글)", 4));
        assert_eq!(
            marked("\u{1112}\u{1161}\u{11ab})", 4),
            below("\u{1112}\u{1161}\u{11ab})", 2)
        );
        // A joiner between two pictures would leave their width to the terminal.
        assert_eq!(marked("👩\u{200d}💻)", 4), below("👩 💻)", 5));
    }

    #[test]
    fn marks_keep_their_base() {
        assert_eq!(marked("e\u{301} )", 4), below("e\u{301} )", 2));
        assert_eq!(marked("ตัวแปร )", 8), below("ตัวแปร )", 6));
        assert_eq!(marked("क्षेत्र)", 8), below("क्षेत्र)", 4));
        assert_eq!(
            marked("क\u{94d}\u{200d}ष)", 5),
            below("क\u{94d}\u{200d}ष)", 2)
        );
        // The place of a mark is that of its base.
        assert_eq!(marked("xe\u{301}", 3), below("xe\u{301}", 1));
        assert_eq!(marked("( \u{301}", 3), below("( \u{301}", 1));
        // Without a base it is not seen.
        assert_eq!(marked("\u{301}x", 2), below(" x", 1));
        assert_eq!(marked("\u{200d}x", 2), below(" x", 1));
    }

    #[test]
    fn text_from_right_to_left_is_turned() {
        let turned = |word: &str| format!("\u{2068}{word}\u{2069}");
        let line = format!("\u{200e}{} )", turned("ערך"));
        assert_eq!(marked("ערך )", 5), below(&line, 4));
        let line = format!("\u{200e}f {} )", turned("قيمة"));
        assert_eq!(marked("f قيمة )", 8), below(&line, 7));
        let line = format!("\u{200e}{} {}", turned("٣"), turned("٤"));
        assert_eq!(marked("٣ ٤", 3), below(&line, 2));
        // Only what is shown counts.
        let text = format!("ערך{}", "a".repeat(100));
        assert_eq!(
            marked(&text, 104),
            below(&format!("..{}", "a".repeat(60)), 62)
        );
    }

    #[test]
    fn a_cut_is_by_columns_and_between_cells() {
        let text = format!("{}x{}", "变".repeat(100), "量".repeat(100));
        let shown = format!("..{}x{}..", "变".repeat(30), "量".repeat(30));
        assert_eq!(marked(&text, 101), below(&shown, 62));
        let text = format!("a{}x{}b", "变".repeat(30), "量".repeat(30));
        let shown = format!("..{}x{}..", "变".repeat(30), "量".repeat(30));
        assert_eq!(marked(&text, 32), below(&shown, 62));
        let marked_letter = "e\u{301}\u{302}";
        let text = marked_letter.repeat(200);
        let shown = format!("..{}..", marked_letter.repeat(121));
        assert_eq!(marked(&text, 301), below(&shown, 62));
        assert_eq!(marked(&text, 302), below(&shown, 62));
        assert_eq!(marked(&text, 303), below(&shown, 62));
    }

    #[test]
    fn any_column_of_any_text_has_its_place() {
        let text = "a\u{301}\t变\u{200d}ע\u{202e}🙂\u{200c}\u{301}क\u{94d}\0\u{10ffff}\n";
        for length in 0..=text.chars().count() {
            let text: String = text.chars().take(length).collect();
            for column in 1..=length + 1 {
                assert_eq!(marked(&text, column).lines().count(), 2);
            }
        }
    }
}
