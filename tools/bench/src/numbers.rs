//! Numbers as text.

/// A number with a comma before each group of three digits.
pub fn grouped(number: usize) -> String {
    let digits = number.to_string();
    let mut text = String::new();
    for (position, digit) in digits.chars().enumerate() {
        if position > 0 && (digits.len() - position).is_multiple_of(3) {
            text.push(',');
        }
        text.push(digit);
    }
    text
}

/// A number rounded to three significant digits.
pub fn rounded(value: f64) -> String {
    if value < 1.0 {
        return format!("{value:.2}");
    }
    // Before the point; rounding can make one more.
    let digits = |value: f64| value.log10().floor() as i32 + 1;
    let unit = 10_f64.powi(digits(value) - 3);
    let value = (value / unit).round() * unit;
    match 3 - digits(value) {
        decimals @ 1.. => format!("{value:.*}", decimals as usize),
        _ => grouped(value.round() as usize),
    }
}

#[cfg(test)]
mod tests {
    use super::*;

    #[test]
    fn numbers_have_three_significant_digits() {
        assert_eq!(rounded(0.126), "0.13");
        assert_eq!(rounded(1.0), "1.00");
        assert_eq!(rounded(9.994), "9.99");
        assert_eq!(rounded(9.996), "10.0");
        assert_eq!(rounded(12.34), "12.3");
        assert_eq!(rounded(99.96), "100");
        assert_eq!(rounded(123.4), "123");
        assert_eq!(rounded(999.6), "1,000");
        assert_eq!(rounded(12_345.0), "12,300");
        assert_eq!(rounded(6_337_000.0), "6,340,000");
    }

    #[test]
    fn groups_have_three_digits() {
        assert_eq!(grouped(7), "7");
        assert_eq!(grouped(1_000), "1,000");
        assert_eq!(grouped(100_000), "100,000");
        assert_eq!(grouped(1_234_567), "1,234,567");
    }
}
