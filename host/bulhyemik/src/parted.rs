//! Values of a line, parted by a character.

use std::fmt::{Display, Formatter, Result};

pub struct Parted<'a, T>(pub &'a [T], pub char);

impl<T: Display> Display for Parted<'_, T> {
    fn fmt(&self, to: &mut Formatter) -> Result {
        let Parted(values, by) = self;
        let Some((first, rest)) = values.split_first() else { return Ok(()) };
        first.fmt(to)?;
        rest.iter().try_for_each(|value| write!(to, "{by}{value}"))
    }
}
