//! A refusal by its number in document 01's table and its place.

use interface::Refusal;

/// The refusal of this number at this place.
pub fn refuse<T>(number: u64, place: usize) -> Result<T, Refusal> {
    Err(Refusal { number, place: place as u64 })
}
