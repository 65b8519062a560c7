//! The formats of an answer: text, as each command has it, or what an option chooses for programs.

use crate::arguments::Arguments;
use crate::stop::Stop;

#[derive(Clone, Copy, Default)]
pub enum Format {
    #[default]
    Text,
    Json,
    Csv,
}

/// The options that choose a format. Lines parted by tabs are text.
const OPTIONS: [(&str, Format); 3] = [("--tsv", Format::Text), ("--json", Format::Json), ("--csv", Format::Csv)];

impl Format {
    /// The format that the options choose.
    pub fn chosen(arguments: &Arguments) -> Result<Format, Stop> {
        let (given, formats): (Vec<&str>, Vec<Format>) =
            OPTIONS.iter().filter(|(option, _)| arguments.has(option)).copied().unzip();
        match formats[..] {
            [] => Ok(Format::Text),
            [format] => Ok(format),
            _ => Err(arguments.usage(format!("choose one of {}", given.join(", ")))),
        }
    }
}
