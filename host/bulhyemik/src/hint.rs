//! What can be seen in a header that the library refused by 1, 2, 4 or 5. Number and place are the library's.

use crate::form::{self, Wanted, byte_order_mark, either, keyword, unclosed};
use crate::kinds::{GRID, GROUP, Kind, RAMP, RAMP2, STEP};
use crate::number::decimal;
use crate::reach::Reach;
use crate::stop::Refusal;

/// What is to be seen at the place of a refusal, in words.
pub fn hint(text: &[u8], refusal: &Refusal) -> Option<String> {
    let text = Text(text);
    let place = usize::try_from(refusal.place).ok()?;
    match refusal.number {
        1 => text.form(place),
        2 => text.limit(place),
        4 => text.grid(place)?.too_far(),
        5 => {
            let later = text.grid(place)?;
            (1..place).find_map(|k| later.clash(&text.grid(k)?))
        }
        _ => None,
    }
}

/// The kinds of a function's line.
const FUNCTIONS: [Kind; 3] = [RAMP, STEP, RAMP2];

/// The first fields of a line, more than any line has.
fn fields(line: &[u8]) -> Vec<&[u8]> {
    form::fields(line, GRID.fields())
}

/// A header text.
struct Text<'a>(&'a [u8]);

impl<'a> Text<'a> {
    /// The line of a number from 1, if there is one that a line feed closes; else what stands behind the last line feed.
    fn line(&self, place: usize) -> Result<&'a [u8], &'a [u8]> {
        form::line(self.0, place)
    }

    /// The counts of functions and grids, if the group line has them.
    fn counts(&self) -> Option<(usize, usize)> {
        let fields = fields(self.line(1).ok()?);
        let count = |k: usize| usize::try_from(decimal(fields.get(k)?)?).ok();
        Some((count(5)?, count(6)?))
    }

    /// The same in words.
    fn counted(&self) -> String {
        let plural = |count: usize, word: &str| format!("{count} {word}{}", if count == 1 { "" } else { "s" });
        let (functions, grids) = self.counts().unwrap_or_default();
        format!("line 1 counts {} and {}", plural(functions, "function"), plural(grids, "grid"))
    }

    /// The kinds that a line may be of, as the group line counts them, if it is within the header.
    fn kinds(&self, place: usize) -> Option<&'static [Kind]> {
        let (functions, grids) = if place == 1 { (0, 0) } else { self.counts()? };
        match place.checked_sub(1)? {
            0 => Some(&[GROUP]),
            behind if behind <= functions => Some(&FUNCTIONS),
            behind if behind - functions <= grids => Some(&[GRID]),
            _ => None,
        }
    }

    /// What is not of the form at a place.
    fn form(&self, place: usize) -> Option<String> {
        if let (1, Some(mark)) = (place, byte_order_mark(self.0)) {
            return Some(mark);
        }
        let Some(kinds) = self.kinds(place) else {
            return Some(self.behind(place));
        };
        let words: Vec<&str> = kinds.iter().map(|kind| kind.word).collect();
        match self.line(place) {
            Ok(line) => match keyword(line, place, &words) {
                Ok(word) => {
                    let kind = kinds.iter().find(|kind| kind.word == word)?;
                    let form = format!(": {}", kind.form());
                    let wanted = Wanted { word, whose: "", fields: kind.fields(), form };
                    wanted.missed(line, place, |fields| kind.malformed(fields))
                }
                Err(seen) => Some(seen + &self.instead(line, kinds)),
            },
            Err(_) if self.0.is_empty() => Some("the header is empty".into()),
            Err([]) => {
                Some(format!("the header ends before line {place}, a {} line: {}", either(&words), self.counted()))
            }
            Err(_) => Some(unclosed(place)),
        }
    }

    /// What stands behind the last grid line: a function's line, or other bytes.
    fn behind(&self, place: usize) -> String {
        let (Ok(line) | Err(line)) = self.line(place);
        let first = fields(line)[0];
        match FUNCTIONS.iter().find(|kind| kind.word.as_bytes() == first) {
            Some(Kind { word, .. }) => format!(
                "a {word} line stands behind the last grid line: {}; functions stand before the grids",
                self.counted()
            ),
            None => format!("bytes stand behind the last grid line: {}", self.counted()),
        }
    }

    /// What else is said of a line that begins with none of the keywords: the counts, where it is a line of another kind or a grid
    /// is due, or the forms that it may have. The other faults of such a line, and of line 1, which counts, speak for themselves.
    fn instead(&self, line: &[u8], kinds: &[Kind]) -> String {
        let first = fields(line)[0];
        if line.ends_with(b"\r") || !line.contains(&b'\t') || kinds[0].word == GROUP.word {
            String::new()
        } else if kinds[0].word == GRID.word
            || FUNCTIONS.iter().chain(&[GRID]).any(|kind| kind.word.as_bytes() == first)
        {
            format!("; {}", self.counted())
        } else if kinds.len() > 1 {
            format!("; its form is {}", either(kinds.iter().map(Kind::form)))
        } else {
            String::new()
        }
    }

    /// The first number of a line that is outside its limit.
    fn limit(&self, place: usize) -> Option<String> {
        let fields = fields(self.line(place).ok()?);
        let kind = self.kinds(place)?.iter().find(|kind| kind.word.as_bytes() == fields[0])?;
        Some(format!("line {place}: {}", kind.beyond(&fields[1..])?))
    }

    /// The grid of a number from 1, if its numbers and those of the group line are within their limits.
    fn grid(&self, number: usize) -> Option<Reach> {
        let group = GROUP.within(&fields(self.line(1).ok()?)[1..])?;
        let [_, parameters, functions, grids] = group.try_into().ok()?;
        let number = i64::try_from(number).ok().filter(|number| (1..=grids).contains(number))?;
        let fields = fields(self.line((1 + functions + number) as usize).ok()?);
        let numbers = GRID.within(&fields[1..])?.try_into().ok()?;
        Some(Reach::new(number, fields[1], numbers, parameters))
    }
}

#[cfg(test)]
mod tests {
    use super::{Refusal, hint};

    #[test]
    fn of_any_damaged_text_something_short_and_plain_is_said() {
        let plain = |words: String| words.len() < 200 && !words.contains(char::is_control);
        let whole = b"group\tdock\tmetre\t13\t1\t1\t1\nramp\t1\t0\t2\t3\ngrid\tbasin\t0\t0\t10\t10\t3\t2\t1\t0\n";
        for k in 0..whole.len() {
            for byte in [b'\t', b'\n', b'\r', b'9', 0, 0xff] {
                let mut text = whole.to_vec();
                text[k] = byte;
                for number in 0..6 {
                    for place in (0..6).chain([u64::MAX]) {
                        assert!(hint(&text, &Refusal { number, place }).is_none_or(plain));
                        assert!(hint(&text[..k], &Refusal { number, place }).is_none_or(plain));
                    }
                }
            }
        }
    }

    #[test]
    fn nothing_is_said_where_nothing_is_seen() {
        let sound = b"group\tdock\tmetre\t13\t1\t0\t1\ngrid\tbasin\t0\t0\t10\t10\t3\t2\t1\t0\n";
        for (number, place) in [(1, 1), (1, 2), (2, 1), (2, 2), (3, 1), (4, 1), (4, 2), (5, 1)] {
            assert_eq!(hint(sound, &Refusal { number, place }), None);
        }
    }
}
