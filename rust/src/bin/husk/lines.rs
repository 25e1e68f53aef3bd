//! Words, numbers and thetas as text (document 01, Record 1).

use huskcanyon::Mode;

/// A double's word: 16 lower-case hexadecimal digits. Every NaN is one value.
pub fn word(x: f64) -> String {
    let mut text = String::new();
    push_word(&mut text, x);
    text
}

/// Adds a double's word to a text. A collection is verified by millions of words, so the digits are written by hand.
pub fn push_word(text: &mut String, x: f64) {
    let bits = if x.is_nan() { 0x7ff8_0000_0000_0000 } else { x.to_bits() };
    for place in (0..16).rev() {
        let digit = (bits >> (4 * place)) as u8 & 15;
        text.push(char::from(if digit < 10 { b'0' + digit } else { b'a' + digit - 10 }));
    }
}

/// The double of a word, if the text is one.
pub fn from_word(text: &str) -> Option<f64> {
    let in_form = text.len() == 16 && text.bytes().all(|byte| matches!(byte, b'0'..=b'9' | b'a'..=b'f'));
    if !in_form {
        return None;
    }
    u64::from_str_radix(text, 16).ok().map(f64::from_bits)
}

/// A double so that reading it gives the same double again, as short as may be.
pub fn decimal(x: f64) -> String {
    format!("{x:?}")
}

/// A number of theta as a user gives it: 16 lower-case hexadecimal digits are a word, anything else is decimal.
pub fn theta(text: &str) -> Option<f64> {
    from_word(text).or_else(|| text.parse().ok())
}

/// A whole number without a leading zero.
pub fn number(text: &str) -> Option<u64> {
    let in_form = !text.is_empty() && text.bytes().all(|byte| byte.is_ascii_digit()) && (text == "0" || !text.starts_with('0'));
    if in_form {
        text.parse().ok()
    } else {
        None
    }
}

/// So many of something.
pub fn counted(number: u64, noun: &str) -> String {
    match (number, noun.strip_suffix('y')) {
        (1, _) => format!("1 {noun}"),
        (_, Some(start)) => format!("{number} {start}ies"),
        _ => format!("{number} {noun}s"),
    }
}

/// ml or reml.
pub fn mode(mode: Mode) -> &'static str {
    match mode {
        Mode::Ml => "ml",
        Mode::Reml => "reml",
    }
}

/// The mode of a name.
pub fn from_mode(text: &str) -> Option<Mode> {
    match text {
        "ml" => Some(Mode::Ml),
        "reml" => Some(Mode::Reml),
        _ => None,
    }
}

#[cfg(test)]
mod tests {
    use super::*;

    #[test]
    fn words_are_sixteen_lower_case_digits() {
        assert_eq!(from_word("3ff0000000000000"), Some(1.0));
        for text in ["3FF0000000000000", "3ff000000000000", "3ff00000000000000", "+ff0000000000000", ""] {
            assert!(from_word(text).is_none(), "{text}");
        }
        assert_eq!(word(-0.0), "8000000000000000");
        assert_eq!(word(f64::from_bits(0x0123_4567_89ab_cdef)), "0123456789abcdef");
        assert_eq!(word(f64::from_bits(0xfff8_0000_0000_0001)), "7ff8000000000000");
    }

    #[test]
    fn a_theta_is_a_word_or_decimal() {
        assert_eq!(theta("3fe815241ec339a6"), Some(0.7525807));
        assert_eq!(theta("0.7525807"), Some(0.7525807));
        assert_eq!(theta("-1e-3"), Some(-0.001));
        // Sixteen digits that could be both are a word.
        assert_eq!(theta("1000000000000000").map(f64::to_bits), Some(0x1000_0000_0000_0000));
        assert_eq!(theta("1000000000000000.0"), Some(1e15));
        assert_eq!(theta("one"), None);
        assert_eq!(theta(""), None);
    }

    #[test]
    fn a_decimal_is_the_double_again() {
        for x in [327.3270598811351, 5e-324, f64::MAX, -0.0, 0.1 + 0.2] {
            assert_eq!(decimal(x).parse::<f64>().unwrap().to_bits(), x.to_bits());
        }
    }

    #[test]
    fn numbers_have_no_leading_zero() {
        assert_eq!(number("0"), Some(0));
        assert_eq!(number("10"), Some(10));
        for text in ["", "01", "+1", "-1", "1 ", "18446744073709551616"] {
            assert!(number(text).is_none(), "{text}");
        }
    }
}
