//! The lent output of a case: what it must be after the call.

use interface::lent::Element;

/// `len` elements: `filled`, and the pattern behind it.
pub fn filled<T: Element>(len: usize, filled: &[T]) -> Vec<T> {
    (0..len).map(|k| filled.get(k).copied().unwrap_or(T::pattern(k))).collect()
}
