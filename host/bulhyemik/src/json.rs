//! JSON, as much of it as is printed: what is displayed here is a value, and numbers are values as they are.

use crate::parted::Parted;
use std::fmt::{Display, Formatter, Result, Write};

/// A member of an object: its key, which needs no escape, and its value.
pub type Member<'a> = (&'a str, &'a dyn Display);

pub struct Text<'a>(pub &'a str);

pub struct List<'a, T>(pub &'a [T]);

pub struct Object<'a>(pub &'a [Member<'a>]);

/// An object on a line of its own, with its members in parts.
pub fn line(parts: &[&[Member]]) -> String {
    format!("{}\n", Object(&parts.concat()))
}

impl Display for Text<'_> {
    fn fmt(&self, to: &mut Formatter) -> Result {
        to.write_char('"')?;
        for c in self.0.chars() {
            match c {
                '"' | '\\' => write!(to, "\\{c}")?,
                '\0'..='\x1f' => write!(to, "\\u{:04x}", u32::from(c))?,
                _ => to.write_char(c)?,
            }
        }
        to.write_char('"')
    }
}

impl<T: Display> Display for List<'_, T> {
    fn fmt(&self, to: &mut Formatter) -> Result {
        write!(to, "[{}]", Parted(self.0, ','))
    }
}

impl Display for Object<'_> {
    fn fmt(&self, to: &mut Formatter) -> Result {
        to.write_char('{')?;
        for (k, (key, value)) in self.0.iter().enumerate() {
            let comma = if k == 0 { "" } else { "," };
            write!(to, "{comma}\"{key}\":{value}")?;
        }
        to.write_char('}')
    }
}

#[cfg(test)]
mod tests {
    use super::{List, Text, line};

    #[test]
    fn strings_are_escaped_where_json_wants_it() {
        let text = |words: &str| Text(words).to_string();
        assert_eq!(text(""), r#""""#);
        assert_eq!(text("West-basin_2"), r#""West-basin_2""#);
        assert_eq!(text(r#"'a' "b" \c"#), r#""'a' \"b\" \\c""#);
        assert_eq!(text("\0\t\n\r\x1b\x1f \x7f"), "\"\\u0000\\u0009\\u000a\\u000d\\u001b\\u001f \x7f\"");
        assert_eq!(text("±2147483647 größe"), "\"±2147483647 größe\"");
    }

    #[test]
    fn an_object_has_its_members_in_order() {
        assert_eq!(line(&[&[("none", &List::<i64>(&[])), ("two", &List(&[1, -2]))]]), "{\"none\":[],\"two\":[1,-2]}\n");
        assert_eq!(line(&[&[("b", &7.5)], &[("a", &Text("\""))]]), "{\"b\":7.5,\"a\":\"\\\"\"}\n");
    }
}
