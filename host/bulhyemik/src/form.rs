//! Lines of a text, a header's or a log's, and what can be seen on one that is not of its form.

use crate::shown::bytes;

/// The line of a number from 1, if there is one that a line feed closes; else what stands behind the last line feed.
pub fn line(text: &[u8], number: usize) -> Result<&[u8], &[u8]> {
    let mut rest = text;
    let mut line = None;
    for _ in 0..number {
        let end = rest.iter().position(|&c| c == b'\n').ok_or(rest)?;
        line = Some(&rest[..end]);
        rest = &rest[end + 1..];
    }
    line.ok_or(rest)
}

/// The first fields of a line, one more than it should have at most.
pub fn fields(line: &[u8], count: usize) -> Vec<&[u8]> {
    line.split(|&c| c == b'\t').take(count + 1).collect()
}

/// A byte order mark at the beginning of a file.
pub fn byte_order_mark(text: &[u8]) -> Option<String> {
    let mark = match text {
        [0xef, 0xbb, 0xbf, ..] => "a byte order mark",
        [0xfe, 0xff, ..] | [0xff, 0xfe, ..] => "a byte order mark of UTF-16",
        _ => return None,
    };
    Some(format!("the file begins with {mark}; save it as plain ASCII"))
}

/// A line that no line feed closes.
pub fn unclosed(number: usize) -> String {
    format!("line {number} is not closed by a line feed")
}

/// Words as a sentence lists them: `a`, `a or b`, `a, b or c`.
pub fn either(words: impl IntoIterator<Item = impl ToString>) -> String {
    let mut words: Vec<String> = words.into_iter().map(|word| word.to_string()).collect();
    let last = words.pop().unwrap_or_default();
    if words.is_empty() { last } else { format!("{} or {last}", words.join(", ")) }
}

/// How many fields a line has.
fn count(line: &[u8]) -> usize {
    line.iter().filter(|&&c| c == b'\t').count() + 1
}

/// Which of the keywords that a line may begin with it begins with; else what is seen of it.
pub fn keyword(line: &[u8], number: usize, words: &[&'static str]) -> Result<&'static str, String> {
    let first = fields(line, 1)[0];
    let seen = if line.ends_with(b"\r") {
        " ends in CR: lines are closed by a line feed alone".into()
    } else if line.is_empty() {
        format!(" is empty, but must be a {} line", either(words))
    } else if let Some(word) = words.iter().find(|word| word.as_bytes() == first) {
        return Ok(word);
    } else {
        let wanted = either(words.iter().map(|word| format!("'{word}'")));
        let tabs = if count(line) == 1 { "; fields are parted by tabs" } else { "" };
        format!(" begins with '{}', but must begin with {wanted}{tabs}", bytes(first))
    };
    Err(format!("line {number}{seen}"))
}

/// What a line of a keyword should be: what messages say behind its name, and how many fields it has, the keyword among them, with
/// what is said of that.
pub struct Wanted {
    pub word: &'static str,
    pub whose: &'static str,
    pub fields: usize,
    pub form: String,
}

impl Wanted {
    /// What is not of the form on a line that begins with the keyword; `malformed` looks at the fields behind it, once there are
    /// as many as there should be.
    pub fn missed(
        &self,
        line: &[u8],
        number: usize,
        malformed: impl FnOnce(&[&[u8]]) -> Option<String>,
    ) -> Option<String> {
        let Wanted { word, whose, fields: wanted, form } = self;
        let seen = match count(line) {
            count if count == *wanted => format!(": {}", malformed(&fields(line, count)[1..])?),
            1 => format!(" has 1 field, but a {word} line{whose} has {wanted}{form}"),
            count => format!(" has {count} fields parted by tabs, but a {word} line{whose} has {wanted}{form}"),
        };
        Some(format!("line {number}{seen}"))
    }
}
