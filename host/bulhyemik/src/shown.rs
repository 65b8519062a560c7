//! Words of a user as messages show them: what a terminal would take for a command, and bytes that are no text, are escaped.

use std::ffi::OsStr;

/// The longest part of a line or field that a message shows.
const MOST: usize = 60;

/// A file's name, or another word of the command line.
pub fn shown(word: &OsStr) -> String {
    let mut text = String::new();
    for chunk in word.as_encoded_bytes().utf8_chunks() {
        for c in chunk.valid().chars() {
            if matches!(c, '\'' | '"') { text.push(c) } else { text.extend(c.escape_debug()) }
        }
        text.extend(chunk.invalid().iter().map(|byte| format!("\\x{byte:02x}")));
    }
    text
}

/// Bytes of a line or of a field, the first ones if there are many.
pub fn bytes(all: &[u8]) -> String {
    if all.len() <= MOST { all.escape_ascii().to_string() } else { format!("{}..", all[..MOST].escape_ascii()) }
}

#[cfg(test)]
mod tests {
    use super::{bytes, shown};
    use std::ffi::OsStr;
    use std::os::unix::ffi::OsStrExt;

    #[test]
    fn what_a_terminal_would_obey_is_escaped() {
        let word = |bytes: &[u8]| shown(OsStr::from_bytes(bytes));
        assert_eq!(word("größe d'eau.txt".as_bytes()), "größe d'eau.txt");
        assert_eq!(word(b"a\nb\x1b[31m"), "a\\nb\\u{1b}[31m");
        assert_eq!(word(b"\xff\\"), "\\xff\\\\");
        assert_eq!(word("\u{202e}txt".as_bytes()), "\\u{202e}txt");
    }

    #[test]
    fn long_lines_are_shortened() {
        assert_eq!(bytes(b"5\t\x00"), "5\\t\\x00");
        assert_eq!(bytes(&[b'1'; 61]), "1".repeat(60) + "..");
    }
}
