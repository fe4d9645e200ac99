//! Free names that may be slips of the pen.

use super::lexer::quoted_word;
use super::{Declared, Meaning};

/// Names of fewer letters are near too many others.
const LETTERS: usize = 3;

/// Says that a free name is near a declared one, or written like a constructor.
pub(super) fn doubt<'a>(
    declared: impl Iterator<Item = (&'a String, &'a Declared)>,
    free: &str,
) -> Option<String> {
    let mut near: Vec<&str> = Vec::new();
    let mut has_capital_constructors = false;
    for (name, declared) in declared {
        if is_near(name, free) {
            near.push(name);
        }
        let is_constructor = matches!(declared.meaning, Meaning::Constructor { .. });
        has_capital_constructors |= is_constructor && is_capital(name);
    }
    let name = quoted_word(free);
    match near.into_iter().min() {
        Some(other) => Some(format!(
            "{name} is free; {} is declared",
            quoted_word(other)
        )),
        None if is_capital(free) && (has_capital_constructors || is_word(free)) => Some(format!(
            "{name} is free; no constructor of this name is declared"
        )),
        None => None,
    }
}

/// Whether it is too long for what one calls a variable.
fn is_word(name: &str) -> bool {
    name.chars().count() >= LETTERS
}

fn is_capital(name: &str) -> bool {
    name.starts_with(char::is_uppercase)
}

/// Whether two names differ in the case of letters only, or in one letter that is changed, missing, or
/// exchanged with the next.
pub(super) fn is_near(one: &str, other: &str) -> bool {
    // A character has at most four bytes.
    if one.len().abs_diff(other.len()) > 4 {
        return false;
    }
    let (short, long) = match one.chars().count() <= other.chars().count() {
        true => (one, other),
        false => (other, one),
    };
    let is_near = long.chars().nth(LETTERS - 1).is_some() && differ_in_one(short, long);
    is_near || lower(one).eq(lower(other))
}

fn lower(name: &str) -> impl Iterator<Item = char> + '_ {
    name.chars().flat_map(char::to_lowercase)
}

fn differ_in_one(short: &str, long: &str) -> bool {
    let mut short = short.chars();
    let mut long = long.chars();
    loop {
        let rest = (short.clone(), long.clone());
        match (short.next(), long.next()) {
            (a, b) if a == b && a.is_some() => {}
            (Some(a), Some(b)) => {
                // Missing, changed or exchanged.
                let missing = rest.0.as_str() == long.as_str();
                let changed = short.as_str() == long.as_str();
                let exchanged = (short.next(), long.next()) == (Some(b), Some(a))
                    && short.as_str() == long.as_str();
                return missing || changed || exchanged;
            }
            (None, Some(_)) => return long.as_str().is_empty(),
            _ => return false,
        }
    }
}

#[cfg(test)]
mod tests {
    use super::is_near;

    #[test]
    fn one_letter_or_the_case_is_near() {
        for (one, other) in [
            ("add", "addd"),
            ("add", "ad"),
            ("mul", "ml"),
            ("append", "apend"),
            ("length", "lenght"),
            ("true", "True"),
            ("nil", "NIL"),
            ("iszero", "isZero"),
            ("fold", "bold"),
            ("сложить", "сложит"),
        ] {
            assert!(is_near(one, other) && is_near(other, one), "{one} {other}");
        }
    }

    #[test]
    fn other_names_are_not() {
        for (one, other) in [
            ("a", "b"),
            ("fx", "f"),
            ("x1", "x2"),
            ("add", "mul"),
            ("length", "len"),
            ("append", "apendd"),
        ] {
            assert!(
                !is_near(one, other) && !is_near(other, one),
                "{one} {other}"
            );
        }
    }
}
