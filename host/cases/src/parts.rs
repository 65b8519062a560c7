//! The small parts that case lines are made of: numbers, hex bytes, words.

use std::str::FromStr;

/// The number that a word writes.
pub fn number<T: FromStr>(word: &str) -> Result<T, String> {
    word.parse().map_err(|_| format!("'{word}' is no number that fits its place"))
}

/// The bytes that hex digits write; `-` for none.
pub fn bytes(word: &str) -> Result<Vec<u8>, String> {
    if word == "-" {
        return Ok(Vec::new());
    }
    let digit = |c: u8| (c as char).to_digit(16).map(|d| d as u8);
    word.as_bytes()
        .chunks(2)
        .map(|pair| match *pair {
            [high, low] => Some(digit(high)? * 16 + digit(low)?),
            _ => None,
        })
        .collect::<Option<_>>()
        .ok_or_else(|| format!("'{word}' are no hex bytes"))
}

/// Each word of a list parted by spaces.
pub fn list<T>(words: &str, one: impl Fn(&str) -> Result<T, String>) -> Result<Vec<T>, String> {
    words.split(' ').filter(|w| !w.is_empty()).map(one).collect()
}

/// A 32-bit pattern in hex.
pub fn bits32(word: &str) -> Result<u32, String> {
    u32::from_str_radix(word, 16).map_err(|_| format!("'{word}' are no 32 bits"))
}

/// A 64-bit pattern in hex.
pub fn bits64(word: &str) -> Result<u64, String> {
    u64::from_str_radix(word, 16).map_err(|_| format!("'{word}' are no 64 bits"))
}
