//! `format HEADER`: a header as the library writes it.

use crate::arguments::Arguments;
use crate::group;
use crate::output::Output;
use crate::stop::{Stop, accepted};
use interface::{Calls, HEADER_BYTES};

pub fn format(calls: &dyn Calls, arguments: &Arguments, out: &mut Output) -> Result<(), Stop> {
    arguments.count(&[1], "HEADER")?;
    let group = group::read(calls, arguments.file(0))?;
    let (mut text, mut count, mut place) = (vec![0; HEADER_BYTES], 0, 0);
    let number = calls.write_header(&group, &mut text, &mut count, &mut place);
    accepted(number, place)?;
    out.put(&text[..count as usize])
}
