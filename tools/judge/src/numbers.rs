//! Words and encodings, given as numbers with commas or blanks between them.

use std::fmt::Display;
use std::str::FromStr;

use crate::failure::Failure;
use unit::encoding_bits;

pub fn words(text: &str) -> Result<Vec<u32>, Failure> {
    let word = |(place, text)| number(&format!("word {place}"), text, u32::MAX);
    (1..).zip(items(text)).map(word).collect()
}

/// The bits of an encoding, of which the bit count and the bytes are given.
pub fn encoding(text: &str) -> Result<Vec<bool>, Failure> {
    let mut items = items(text);
    let count = number("bit count", items.next().unwrap_or_default(), u32::MAX)?;
    let byte = |(place, text)| number(&format!("byte {place}"), text, u8::MAX);
    let bytes: Result<Vec<u8>, Failure> = (1..).zip(items).map(byte).collect();
    encoding_bits(count as usize, &bytes?).map_err(Failure::text)
}

/// The texts of the numbers; a comma may have a blank after it.
fn items(text: &str) -> impl Iterator<Item = &str> {
    let groups = text.split_whitespace();
    groups.flat_map(|group| group.strip_suffix(',').unwrap_or(group).split(','))
}

fn number<N>(name: &str, text: &str, limit: N) -> Result<N, Failure>
where
    N: FromStr + PartialOrd + Display,
{
    match text.parse() {
        Ok(number) if number <= limit => Ok(number),
        _ => {
            let found = match text {
                "" => "nothing".to_string(),
                _ => format!("`{text}`"),
            };
            Err(Failure::text(format!(
                "{name}: expected a number from 0 to {limit}, found {found}"
            )))
        }
    }
}
