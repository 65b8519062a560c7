//! Numbers as a user writes them; whether one is within its limit is left to the library.

/// Reads a word, if it is of a form.
pub type Form<T> = fn(&[u8]) -> Option<T>;

/// What a whole number must be.
pub const WHOLE: &str = "a whole number, as 12, 0 or -5, without plus or leading zero";

/// A decimal as a header has it, cut to the least or greatest 64-bit number where it lies beyond.
pub fn decimal(word: &[u8]) -> Option<i64> {
    let digits = word.strip_prefix(b"-").unwrap_or(word);
    let of_form = match digits {
        [b'0'] => word.len() == 1,
        [b'1'..=b'9', rest @ ..] => rest.iter().all(u8::is_ascii_digit),
        _ => false,
    };
    if !of_form {
        return None;
    }
    let beyond = if word.starts_with(b"-") { i64::MIN } else { i64::MAX };
    Some(std::str::from_utf8(word).ok()?.parse().unwrap_or(beyond))
}

/// A finite float in decimals, with or without fraction and exponent, or `0x` and the 8 hex digits of its bits.
pub fn float(word: &[u8]) -> Option<f32> {
    let word = std::str::from_utf8(word).ok()?;
    if let Some(bits) = word.strip_prefix("0x") {
        let hex = bits.len() == 8 && bits.bytes().all(|c| c.is_ascii_hexdigit());
        return if hex { u32::from_str_radix(bits, 16).ok().map(f32::from_bits) } else { None };
    }
    let decimal = |c: char| c.is_ascii_digit() || "+-.eE".contains(c);
    let value: f32 = if word.chars().all(decimal) { word.parse().ok()? } else { return None };
    value.is_finite().then_some(value)
}

#[cfg(test)]
mod tests {
    use super::{decimal, float};

    #[test]
    fn decimals_are_as_in_a_header() {
        let read = |word: &str| decimal(word.as_bytes());
        assert_eq!(read("0"), Some(0));
        assert_eq!(read("-5"), Some(-5));
        assert_eq!(read("9223372036854775808"), Some(i64::MAX));
        assert_eq!(read("-99999999999999999999"), Some(i64::MIN));
        for word in ["", "-", "+1", "01", "-0", "00", "1.0", "1 ", "١", "1e3"] {
            assert_eq!(read(word), None, "{word}");
        }
    }

    #[test]
    fn floats_are_decimals_or_bits() {
        let read = |word: &str| float(word.as_bytes()).map(f32::to_bits);
        assert_eq!(read("-9999"), Some(0xc61c_3c00));
        assert_eq!(read("0xc61c3c00"), Some(0xc61c_3c00));
        assert_eq!(read("0x7f800000"), Some(0x7f80_0000));
        assert_eq!(read("-0"), Some(0x8000_0000));
        for word in ["", "nan", "inf", "1e99", "0x1", "0x7f80000g", "1,5"] {
            assert_eq!(read(word), None, "{word}");
        }
    }
}
