//! Decimal numbers of document 01's form, and texts put into lent output.

use crate::refusal::refuse;
use interface::Refusal;

/// Far beyond every limit; a number with more digits is taken as this size.
const HUGE: i128 = 1_000_000_000_000_000_000_000_000_000_000;

/// The number that these bytes write, if they are of the form: no plus, no leading zero, no −0.
pub fn decimal(text: &[u8]) -> Option<i128> {
    let (below, digits) = match text.strip_prefix(b"-") {
        Some(rest) => (true, rest),
        None => (false, text),
    };
    if digits.is_empty() || !digits.iter().all(u8::is_ascii_digit) {
        return None;
    }
    if digits[0] == b'0' && (below || digits.len() > 1) {
        return None;
    }
    let size = digits.iter().fold(0, |size: i128, d| (size * 10 + i128::from(d - b'0')).min(HUGE));
    Some(if below { -size } else { size })
}

/// Puts a text at the front of `out` and answers the count of its bytes: refusal 12.
pub fn put(text: &[u8], out: &mut [u8]) -> Result<usize, Refusal> {
    match out.get_mut(..text.len()) {
        Some(part) => {
            part.copy_from_slice(text);
            Ok(text.len())
        }
        None => refuse(12, 0),
    }
}
