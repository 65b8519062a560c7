//! The arguments of a command: files and numbers, by their place and name, and its options.

use crate::number::{self, Form};
use crate::shown::shown;
use crate::stop::Stop;
use std::ffi::{OsStr, OsString};

/// The words behind a command's name, parted into options and arguments.
pub struct Arguments<'a> {
    command: &'a str,
    words: Vec<&'a OsStr>,
    options: Vec<&'a OsStr>,
}

/// Whether a word is an option: it begins with `-`, and is neither standard input nor a number.
pub fn is_option(word: &OsStr) -> bool {
    matches!(word.as_encoded_bytes(), [b'-', second, ..] if !matches!(second, b'0'..=b'9' | b'.'))
}

/// The words before `--`, among which options can stand.
pub fn before_the_end(words: &[OsString]) -> &[OsString] {
    let end = words.iter().position(|word| word == "--");
    &words[..end.unwrap_or(words.len())]
}

impl<'a> Arguments<'a> {
    /// Takes the words, with the options that the command has; `--help` has been answered before.
    pub fn new(command: &'a str, known: &[&str], words: &'a [OsString]) -> Result<Arguments<'a>, Stop> {
        let (first, behind) = words.split_at(before_the_end(words).len());
        let (options, mut all): (Vec<&OsStr>, Vec<&OsStr>) =
            first.iter().map(OsString::as_os_str).partition(|word| is_option(word));
        all.extend(behind.iter().skip(1).map(OsString::as_os_str));
        let arguments = Arguments { command, words: all, options };
        match arguments.options.iter().find(|&&option| !known.iter().any(|&name| option == name)) {
            Some(option) => Err(arguments.usage(format!("there is no option '{}'", shown(option)))),
            None => Ok(arguments),
        }
    }

    /// Wrong usage, with the way to the command's help.
    pub fn usage(&self, why: String) -> Stop {
        Stop::Usage(format!("{why}; see bulhyemik {} --help", self.command))
    }

    /// How many arguments there are, if that is one of the counts that the named arguments admit.
    pub fn count(&self, admitted: &[usize], named: &str) -> Result<usize, Stop> {
        let count = self.words.len();
        if admitted.contains(&count) {
            return Ok(count);
        }
        let plural = if count == 1 { "" } else { "s" };
        Err(self.usage(format!("{} takes {named}, not {count} argument{plural}", self.command)))
    }

    /// Whether an option is given.
    pub fn has(&self, option: &str) -> bool {
        self.options.iter().any(|&given| given == option)
    }

    /// The file at a place.
    pub fn file(&self, k: usize) -> &'a OsStr {
        self.words[k]
    }

    /// Whether the file at a place is standard input.
    pub fn is_standard_input(&self, k: usize) -> bool {
        self.words[k] == "-"
    }

    /// Refuses standard input for two of the first arguments, which have these names.
    pub fn standard_input_once(&self, names: &[&str]) -> Result<(), Stop> {
        let mut given = names.iter().enumerate().filter(|&(k, _)| self.is_standard_input(k)).map(|(_, name)| name);
        match (given.next(), given.next()) {
            (Some(one), Some(other)) => Err(self.usage(format!("{one} and {other} are both standard input"))),
            _ => Ok(()),
        }
    }

    /// The whole number at a place, cut to 64 bits, which lie beyond every limit.
    pub fn number(&self, k: usize, name: &str) -> Result<i64, Stop> {
        self.parse(k, name, number::decimal, number::WHOLE)
    }

    /// The float at a place.
    pub fn float(&self, k: usize, name: &str) -> Result<f32, Stop> {
        self.parse(k, name, number::float, "a number, as -9999 or 1.5e30, or a float's bits, as 0xc61c3c00")
    }

    fn parse<T>(&self, k: usize, name: &str, form: Form<T>, wanted: &str) -> Result<T, Stop> {
        form(self.words[k].as_encoded_bytes())
            .ok_or_else(|| self.usage(format!("{name} is '{}', but must be {wanted}", shown(self.words[k]))))
    }
}
