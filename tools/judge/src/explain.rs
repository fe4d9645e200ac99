//! What the program's lines mean, and what they do not.

/// A section for each subject; its examples are a command and, further in, what that prints.
const TEXTS: &str = include_str!("explain.txt");
/// Stands before each subject.
const HEADING: &str = "== ";

/// The text about a verdict, the number of a refusal, or `Input`; letters may be in any case.
pub fn explain(subject: &str) -> Option<String> {
    let found = sections().find(|(name, _)| name.eq_ignore_ascii_case(subject));
    found.map(|(_, text)| text.trim().to_string())
}

/// What there are texts about, as a list.
pub fn subjects() -> String {
    let names: Vec<&str> = sections().map(|(name, _)| name).collect();
    names.join(", ")
}

fn sections() -> impl Iterator<Item = (&'static str, &'static str)> {
    let sections = TEXTS.split(HEADING);
    sections.filter_map(|section| section.split_once('\n'))
}

#[cfg(test)]
mod tests {
    use super::*;
    use unit::limits::{MAX_ARGUMENTS, MAX_BRANCHES};

    #[test]
    fn every_line_of_the_program_has_a_text() {
        assert_eq!(
            subjects(),
            "Same, Different, Budget, Full, Input, 1, 2, 3, 4, 5, 6, 7, 8, 9, 10, 11, 12, 13"
        );
        for name in subjects().split(", ") {
            let text = explain(name).expect("a text");
            let begins = match name.parse::<u32>() {
                Ok(number) => format!("Refused {number}: "),
                Err(_) => name.to_string(),
            };
            assert!(text.starts_with(&begins), "{name}");
            for spelled in [name.to_lowercase(), name.to_uppercase()] {
                assert_eq!(explain(&spelled).as_ref(), Some(&text));
            }
        }
    }

    #[test]
    fn the_limits_of_parts_are_those_of_the_unit() {
        let limits = format!("at most {MAX_ARGUMENTS}, and branches at most {MAX_BRANCHES},");
        assert!(explain("5").is_some_and(|text| text.contains(&limits)));
    }

    #[test]
    fn nothing_else_has_one() {
        for subject in [
            "", "0", "14", "01", "+1", "Sam", "Same ", "Refused", "Script",
        ] {
            assert_eq!(explain(subject), None, "{subject}");
        }
    }

    #[test]
    fn a_text_is_short_and_has_an_example() {
        for name in subjects().split(", ") {
            let text = explain(name).expect("a text");
            let lines: Vec<&str> = text.lines().collect();
            assert!((6..=15).contains(&lines.len()), "{name}: {}", lines.len());
            for line in &lines {
                assert!(line.is_ascii() && line.len() <= 100, "{line}");
                assert_eq!(line.trim_end(), *line);
            }
            assert!(lines.iter().any(|line| line.starts_with("    ")), "{name}");
            assert!(text.contains("\n\nIt "), "{name}: what it does not mean");
        }
    }
}
