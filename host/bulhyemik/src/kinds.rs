//! The kinds of header line as a person looks at them: keywords, fields and limits, for the words of a refusal.

use crate::number::{WHOLE, decimal};
use crate::shown::bytes;

/// A kind of line: its keyword, its fields that are text and its fields that are numbers.
pub struct Kind {
    pub word: &'static str,
    texts: &'static [&'static str],
    numbers: &'static [Number],
}

/// A number of a line: its name and its limits; a spacing is never 0.
struct Number {
    name: &'static str,
    least: i64,
    most: i64,
}

const fn number(name: &'static str, least: i64, most: i64) -> Number {
    Number { name, least, most }
}

const fn day(name: &'static str) -> Number {
    number(name, -1_000_000, 1_000_000)
}

const fn factor(name: &'static str) -> Number {
    number(name, -10_000_000, 10_000_000)
}

pub const GROUP: Kind = Kind {
    word: "group",
    texts: &["NAME", "UNIT"],
    numbers: &[
        number("Q", 0, 20),
        number("NP", 1, 3),
        number("the count of functions", 0, 8),
        number("the count of grids", 1, 64),
    ],
};

/// Those of the functions of time.
pub const RAMP: Kind = Kind { word: "ramp", texts: &[], numbers: &[day("A"), factor("S0"), day("B"), factor("S1")] };
pub const STEP: Kind = Kind { word: "step", texts: &[], numbers: &[day("EVENT"), day("REF"), factor("MULT")] };
pub const RAMP2: Kind =
    Kind { word: "ramp2", texts: &[], numbers: &[day("START"), day("END"), day("REF"), factor("MULT")] };

pub const GRID: Kind = Kind {
    word: "grid",
    texts: &["NAME"],
    numbers: &[
        number("LON", -1_296_000_000, 1_296_000_000),
        number("LAT", -324_000_000, 324_000_000),
        number("DLON", -36_000_000, 36_000_000),
        number("DLAT", -36_000_000, 36_000_000),
        number("NI", 2, 16_384),
        number("NJ", 2, 16_384),
        number("RANK", 1, 1_000),
        number("START", 0, 16_777_215),
    ],
};

impl Kind {
    /// How many fields a line of this kind has, its keyword among them.
    pub fn fields(&self) -> usize {
        1 + self.texts.len() + self.numbers.len()
    }

    /// The keyword and the names of the fields, as the rules write them.
    pub fn form(&self) -> String {
        let short = |number: &Number| number.name.trim_start_matches("the count of ").to_uppercase();
        let texts = [self.word].into_iter().chain(self.texts.iter().copied()).map(String::from);
        texts.chain(self.numbers.iter().map(short)).collect::<Vec<_>>().join(" ")
    }

    /// The first field behind the keyword that is malformed.
    pub fn malformed(&self, fields: &[&[u8]]) -> Option<String> {
        let (texts, numbers) = fields.split_at_checked(self.texts.len())?;
        let text = self.texts.iter().zip(texts).find_map(|(name, field)| malformed_text(name, field));
        text.or_else(|| {
            self.numbers.iter().zip(numbers).find_map(|(number, field)| malformed_number(number.name, field))
        })
    }

    /// The numbers behind the keyword, if each is within its limit.
    pub fn within(&self, fields: &[&[u8]]) -> Option<Vec<i64>> {
        let (_, numbers) = fields.split_at_checked(self.texts.len())?;
        let number = |(number, field): (&Number, &&[u8])| decimal(field).filter(|_| number.beyond(field).is_none());
        self.numbers.iter().zip(numbers).map(number).collect()
    }

    /// The first number behind the keyword that is outside its limit, or days that are not in their order.
    pub fn beyond(&self, fields: &[&[u8]]) -> Option<String> {
        let (_, numbers) = fields.split_at_checked(self.texts.len())?;
        let beyond = self.numbers.iter().zip(numbers).find_map(|(number, field)| number.beyond(field));
        beyond.or_else(|| match (self.word, numbers) {
            ("ramp", [a, _, b, _]) => Some(format!("A is {}, above B, which is {}", bytes(a), bytes(b))),
            ("ramp2", [start, end, _, _]) => {
                let remedy = if start == end { "; a change on one day is a step" } else { "" };
                Some(format!("START is {}, not below END, which is {}{remedy}", bytes(start), bytes(end)))
            }
            _ => None,
        })
    }
}

/// What is said of a field that is no whole number.
pub fn malformed_number(name: &str, field: &[u8]) -> Option<String> {
    decimal(field).is_none().then(|| format!("{name} is '{}', but must be {WHOLE}", bytes(field)))
}

/// What is said of a field that is no unit, if that is its name, or no name.
pub fn malformed_text(name: &str, field: &[u8]) -> Option<String> {
    let name_byte = |c: &u8| c.is_ascii_alphanumeric() || matches!(c, b'_' | b'-');
    let (well_formed, wanted) = match name {
        "UNIT" => (matches!(field, b"arc-second" | b"metre"), "arc-second or metre"),
        _ => {
            let of_form = matches!(field.len(), 1..=24) && field.iter().all(name_byte);
            (of_form, "1 to 24 of A to Z, a to z, 0 to 9, _ and -")
        }
    };
    (!well_formed).then(|| format!("{name} is '{}', but must be {wanted}", bytes(field)))
}

impl Number {
    /// What is said of a field that is outside the limits.
    fn beyond(&self, field: &[u8]) -> Option<String> {
        let value = decimal(field)?;
        let Number { name, least, most } = self;
        let spacing = name.starts_with('D');
        if (*least..=*most).contains(&value) && !(spacing && value == 0) {
            return None;
        }
        let limit = if spacing { format!("1 to {most} in size") } else { format!("{least} to {most}") };
        Some(format!("{name} is {}, its limit is {limit}", bytes(field)))
    }
}
