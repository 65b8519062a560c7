//! The judge of a log: one pass over its bytes, in a group that is judged once.

use crate::judge::{judge, name_byte};
use crate::lookup::Lookups;
use interface::{Fault, Group, MOST_PARAMETERS, NAME_BYTES, Position, Refusal};

/// A number is cut here, beyond every limit and every result.
const CUT: i64 = 100_000_000_000_000_000;

/// What is left of the log.
struct Cursor<'a> {
    rest: &'a [u8],
}

impl<'a> Cursor<'a> {
    /// Takes these bytes.
    fn word(&mut self, word: &[u8]) -> Option<()> {
        self.rest = self.rest.strip_prefix(word)?;
        Some(())
    }

    /// Takes a name and the tab behind it.
    fn name(&mut self) -> Option<&'a [u8]> {
        let len = self.rest.iter().take(NAME_BYTES).take_while(|&&c| name_byte(c)).count();
        let (name, rest) = self.rest.split_at(len);
        self.rest = rest.strip_prefix(b"\t")?;
        (len > 0).then_some(name)
    }

    /// Takes a number and the byte behind it.
    fn number(&mut self, behind: u8) -> Option<i64> {
        let below = self.rest.first() == Some(&b'-');
        let digits = &self.rest[usize::from(below)..];
        let (mut size, mut len) = (0, 0);
        while let Some(c @ b'0'..=b'9') = digits.get(len) {
            size = (size * 10 + i64::from(c - b'0')).min(CUT);
            len += 1;
        }
        let good = if digits.first() == Some(&b'0') { len == 1 && !below } else { len > 0 };
        self.rest = digits[len..].strip_prefix(&[behind])?;
        good.then_some(if below { -size } else { size })
    }

    /// Takes a line of so many values: its position, its name, its values and zeros behind them.
    fn line(&mut self, parameters: usize) -> Option<(Position, &'a [u8], [i64; MOST_PARAMETERS])> {
        self.word(b"fix\t")?;
        let (lon, lat, day) = (self.number(b'\t')?, self.number(b'\t')?, self.number(b'\t')?);
        let name = self.name()?;
        let mut values = [0; MOST_PARAMETERS];
        for (p, value) in values[..parameters].iter_mut().enumerate() {
            *value = self.number(if p + 1 < parameters { b'\t' } else { b'\n' })?;
        }
        Some((Position { lon, lat, day }, name, values))
    }
}

/// Judges a log: the first bad line and its kind.
pub fn judge_log(group: &Group, nodes: &[i32], log: &[u8]) -> Result<Fault, Refusal> {
    let extents = judge(group)?;
    let mut lookups = Lookups::new(group, &extents, nodes)?;
    let mut cursor = Cursor { rest: log };
    let mut line = 0;
    while !cursor.rest.is_empty() {
        line += 1;
        let Some((at, name, values)) = cursor.line(group.parameters as usize) else {
            return Ok(Fault { line, kind: Fault::FORM });
        };
        let Ok(fix) = lookups.fix(&at) else {
            return Ok(Fault { line, kind: Fault::REFUSED });
        };
        if name != group.grid[fix.grid as usize - 1].name.text() {
            return Ok(Fault { line, kind: Fault::GRID });
        }
        if values != fix.result {
            return Ok(Fault { line, kind: Fault::SHIFT });
        }
    }
    Ok(Fault::default())
}
